# hiredis-rb 0.6 (ruby-hiredis): its reader in C.
# needs: ruby /usr/share/doc/ruby-hiredis
# run: ruby {FILE}
require "json"
require "hiredis/reader"

def latin1(text) = text.dup.force_encoding("ISO-8859-1").encode("UTF-8")

def told(value)
  case value
  when nil then ["null"]
  when Integer then ["integer", value.to_s]
  when RuntimeError then ["error", latin1(value.message)]
  when Array then ["array", value.map { |it| told(it) }]
  else ["bulk", latin1(value)]
  end
end

def judged(pieces, values)
  reader = Hiredis::Reader.new
  pieces.each do |piece|
    reader.feed([piece].pack("H*")) unless piece == "end"
    while (value = reader.gets) != false
      values << told(value)
    end
  end
  "more"
rescue StandardError
  "error"
end

if ARGV == ["--about"]
  puts JSON.generate(parser: "hiredis-rb 0.6.3", profiles: ["resp2"], same: [%w[null nullbulk nullarray], %w[bulk simple]])
  exit
end
$stdout.sync = true
$stdin.each_line do |line|
  id, _, pieces = line.chomp.split(" ", 3)
  values = []
  finish = judged((pieces || "").split(","), values)
  puts JSON.generate(id: id, values: values, end: finish)
end
