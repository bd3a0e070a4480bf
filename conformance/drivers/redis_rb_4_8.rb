# redis-rb 4.8 (ruby-redis): its connection in Ruby.
# needs: ruby /usr/share/rubygems-integration/all/gems/redis-4.8.0/lib/redis.rb
# run: ruby {FILE}
require "json"
require "redis"
require "redis/connection/ruby"

class Dry < Exception; end

# A socket of pieces, of which one call reads one.
class Pieces
  def initialize(pieces)
    @left, @is_over = pieces.reject { |it| it == "end" }.map { |it| [it].pack("H*") }.reject(&:empty?), pieces.include?("end")
    super()
  end

  def read_nonblock(size, _room = nil, exception: true)
    raise Dry if @left.empty? && !@is_over
    return nil if @left.empty?
    piece = @left.shift
    @left.unshift(piece.byteslice(size..)) if piece.bytesize > size
    piece.byteslice(0, size)
  end
end

class PiecesSocket < Pieces
  include Redis::Connection::SocketMixin

  def initialize(pieces)
    super
    @buffer = "".b
  end
end

def latin1(text) = text.dup.force_encoding("ISO-8859-1").encode("UTF-8")

def told(value)
  case value
  when nil then ["null"]
  when Integer then ["integer", value.to_s]
  when Redis::CommandError then ["error", latin1(value.message)]
  when Array then ["array", value.map { |it| told(it) }]
  else ["bulk", latin1(value)]
  end
end

def judged(pieces, values)
  connection = Redis::Connection::Ruby.new(PiecesSocket.new(pieces))
  loop { values << told(connection.read) }
rescue Dry, Errno::ECONNRESET
  "more"
rescue StandardError
  "error"
end

if ARGV == ["--about"]
  puts JSON.generate(parser: "redis-rb 4.8.0", profiles: ["resp2"], same: [%w[null nullbulk nullarray], %w[bulk simple]])
  exit
end
$stdout.sync = true
$stdin.each_line do |line|
  id, _, pieces = line.chomp.split(" ", 3)
  values = []
  finish = judged((pieces || "").split(","), values)
  puts JSON.generate(id: id, values: values, end: finish)
end
