// node-mqtt by MQTT 3.1.1 and 3.1 beside 5.0: mqtt3_node.js PORT. One line a check.
const mqtt = require('mqtt')
const url = `mqtt://127.0.0.1:${process.argv[2]}`
let bad = 0
const say = (good, name, why) => { console.log(`${good ? 'PASS' : 'FAIL'} ${name.padEnd(58)} ${good ? '' : why}`.trimEnd()); if (!good) { bad++; process.exitCode = 1 } }
const options = version => version === 3 ? { protocolId: 'MQIsdp', protocolVersion: 3 } : { protocolVersion: version }
const connect = (clientId, version, more = {}) => new Promise((done, fail) => {
  const client = mqtt.connect(url, { ...options(version), clientId, reconnectPeriod: 0, ...more })
  client.on('connect', connack => { client.connack = connack; done(client) }).on('error', fail)
})
const subscribe = (client, filter, qos) => new Promise((done, fail) => client.subscribe(filter, { qos }, (e, granted) => e ? fail(e) : done(granted)))
const within = (promise, what) => Promise.race([promise, new Promise((_, fail) => setTimeout(() => fail(new Error(`${what}: nothing came`)), 60000).unref())])
async function main () {
  for (const here of [4, 3]) {
    for (const there of [4, 3, 5]) {
      const reader = await within(connect(`nr${here}${there}`, here), 'reader'); const writer = await within(connect(`nw${here}${there}`, there), 'writer')
      for (const qos of [0, 1, 2]) {
        const topic = `node/${here}${there}/${qos}`; const got = []; const n = there === 5 && qos === 2 ? 50 : 300
        const granted = await within(subscribe(reader, topic, qos), 'SUBACK')
        const all = new Promise(done => reader.on('message', (t, payload, packet) => { if (t === topic && got.push([payload.toString(), packet.qos]) === n) done() }))
        for (let i = 0; i < n; i++) writer.publish(topic, String(i), { qos })
        await within(all, `QoS ${qos}`).catch(e => {})
        say(granted[0].qos === qos && got.length === n && got.every(([text, q], i) => text === String(i) && q === qos), `node-mqtt ${there} to ${here} at QoS ${qos}, ${n} at once`, `${got.length} came`)
      }
      reader.end(); writer.end()
    }
    const first = await within(connect(`nk${here}`, here, { clean: false }), 'session'); await within(subscribe(first, 'nkeep', 1), 'SUBACK')
    await new Promise(done => first.end(false, {}, done))
    const writer = await within(connect(`nkw${here}`, here), 'writer')
    for (let i = 0; i < 10; i++) await new Promise((done, fail) => writer.publish('nkeep', String(i), { qos: 1 }, e => e ? fail(e) : done()))
    const got = []
    const again = mqtt.connect(url, { ...options(here), clientId: `nk${here}`, clean: false, reconnectPeriod: 0 })
    await within(new Promise(done => again.on('message', (t, payload) => { if (got.push(payload.toString()) === 10) done() })), 'queued').catch(e => {})
    say(got.join('') === '0123456789', `node-mqtt ${here} session with queued messages`, got.join(''))
    again.end(); writer.end()
  }
  console.log(`${bad ? 'FAIL' : 'PASS'} ${bad} bad`)
}
main().catch(fault => { say(false, 'node-mqtt', fault.message); process.exit(1) })
