# Makes the calls of scripts/interop to json-jwt. Each line of standard input is a JSON request, and each line of
# standard output is a JSON answer.
# It signs only claims, which are a JSON object.
require 'base64'
require 'json/jwt'

def octets(text)
  Base64.urlsafe_decode64(text)
end

def text_of(some)
  Base64.urlsafe_encode64(some, padding: false)
end

def sign(ask)
  jwt = JSON::JWT.new(JSON.parse(octets(ask['payload'])))
  jws = jwt.sign(octets(ask['keys'][0]), ask['algs'][0].to_sym)
  ask['form'] == 'compact' ? jws.to_s : jws.as_json(syntax: :flattened).to_json
end

def verify(ask)
  text = ask['text'].start_with?('{') ? JSON.parse(ask['text']) : ask['text']
  text_of(JSON::JWT.decode(text, octets(ask['key'])).to_json)
end

def encrypt(ask)
  jwe = JSON::JWE.new(octets(ask['plaintext']))
  jwe.alg = ask['algs'][0].to_sym
  jwe.enc = ask['enc'].to_sym
  jwe.encrypt!(octets(ask['keys'][0]))
  ask['form'] == 'compact' ? jwe.to_s : jwe.as_json(syntax: :flattened).to_json
end

def decrypt(ask)
  text = ask['text'].start_with?('{') ? JSON.parse(ask['text']) : ask['text']
  text_of(JSON::JWE.decode(text, octets(ask['key'])).plain_text)
end

$stdout.sync = true
$stdin.each_line do |line|
  ask = JSON.parse(line)
  begin
    answer = { ok: send(ask['do'], ask) }
  rescue StandardError, NotImplementedError => error
    answer = { refused: error.inspect }
  end
  puts answer.to_json
end
