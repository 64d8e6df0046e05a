# Makes the calls of scripts/interop to ruby-jwt. Each line of standard input is a JSON request, and each line of
# standard output is a JSON answer.
# It signs only claims, which are a JSON object.
require 'base64'
require 'json'
require 'jwt'

def octets(text)
  Base64.urlsafe_decode64(text)
end

def sign(ask)
  JWT.encode(JSON.parse(octets(ask['payload'])), octets(ask['keys'][0]), ask['algs'][0])
end

def verify(ask)
  claims, = JWT.decode(ask['text'], octets(ask['key']), true, algorithms: %w[HS256 HS384 HS512])
  Base64.urlsafe_encode64(JSON.generate(claims), padding: false)
end

$stdout.sync = true
$stdin.each_line do |line|
  ask = JSON.parse(line)
  begin
    answer = { ok: send(ask['do'], ask) }
  rescue StandardError => error
    answer = { refused: error.inspect }
  end
  puts JSON.generate(answer)
end
