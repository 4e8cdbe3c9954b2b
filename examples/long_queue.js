// Reads a queue by MQTT.js with its defaults: long_queue.js PORT CLIENT MESSAGES. Prints the first seven bytes of each message.
const mqtt = require('mqtt')
const [, , port, clientId, messages] = process.argv
let came = 0
const client = mqtt.connect(`mqtt://127.0.0.1:${port}`, {
  protocolVersion: 5, clientId, clean: false, reconnectPeriod: 0, properties: { sessionExpiryInterval: 4294967295 }
})
client.on('message', (topic, payload) => {
  process.stdout.write(`${payload.toString('latin1', 0, 7)}\n`)
  if (++came === Number(messages)) client.end()
})
client.on('close', () => process.exit(came === Number(messages) ? 0 : 1))
