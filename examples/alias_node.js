#!/usr/bin/env node
// Publishes under topic aliases by node-mqtt (MQTT.js), and looks at what a subscriber gets.
//
//     alias_node.js PORT [HOST]
//
// Each alias that the broker allows is set, used with an empty topic, and set to another topic, at QoS 0, 1 and 2. Where each message comes to
// the subscriber with its whole topic it says so and ends with status 0.
const mqtt = require('mqtt')

const [port, host = '127.0.0.1'] = process.argv.slice(2)
if (!port) {
  console.error('usage: alias_node.js PORT [HOST]')
  process.exit(2)
}
const address = `mqtt://${host}:${port}`

function fail (text) {
  console.error(text)
  process.exit(1)
}

const patience = setTimeout(() => fail('not all messages came'), 20000)

// What is published, and the topic under which it has to come.
const messages = []
let came = 0

const subscriber = mqtt.connect(address, { protocolVersion: 5, clientId: 'alias-node-in' })
subscriber.on('connect', () => subscriber.subscribe('node/#', { qos: 2 }, publish))
subscriber.on('message', (topic, payload) => {
  const { name, text } = messages[came]
  if (topic !== name || payload.toString() !== text) fail(`${topic} ${payload} came for ${name} ${text}`)
  came += 1
  if (came === messages.length) end()
})

let publisher
function publish () {
  publisher = mqtt.connect(address, { protocolVersion: 5, clientId: 'alias-node-out' })
  publisher.on('connect', connack => {
    const most = connack.properties.topicAliasMaximum
    for (const qos of [0, 1, 2]) {
      for (const text of ['set', 'used', 'replaced', 'used again']) {
        for (let alias = 1; alias <= most; alias++) {
          const name = `node/${text.startsWith('replaced') || text.endsWith('again') ? 'other/' : ''}${qos}/${alias}`
          messages.push({ topic: text.startsWith('used') ? '' : name, name, alias, qos, text })
        }
      }
    }
    send(0)
  })
}

// Each message is handed over before the next one is sent.
function send (place) {
  if (place === messages.length) return
  const { topic, alias, qos, text } = messages[place]
  publisher.publish(topic, text, { qos, properties: { topicAlias: alias } }, error => {
    if (error) fail(`${error}`)
    send(place + 1)
  })
}

function end () {
  clearTimeout(patience)
  publisher.end()
  subscriber.end()
  const empty = messages.filter(message => message.topic === '').length
  console.log(`${came} messages came with their topics, ${empty} of them sent by an alias alone`)
}
