-- redis-lua 2.0 (lua-redis): its client over a socket of pieces.
-- needs: lua5.1 /usr/share/lua/5.1/redis.lua
-- run: lua5.1 {FILE}
if arg[1] == '--about' then
    print('{"parser": "redis-lua 2.0.5", "profiles": ["resp2"], "same": [["null", "nullbulk", "nullarray"], ["bulk", "simple"]]}')
    os.exit()
end
package.path = '/usr/share/lua/5.1/?.lua;' .. package.path
local redis = require 'redis'

local function quoted(text)
    return '"' .. text:gsub('[%c"\\\127-\255]', function(it) return ('\\u%04x'):format(it:byte()) end):gsub('%z', '\\u0000') .. '"'
end

local function told(value)
    if value == nil then return '["null"]' end
    if value == true then return '["bulk", "OK"]' end
    if type(value) == 'number' then return ('["integer", "%.0f"]'):format(value) end
    if type(value) == 'string' then return '["bulk", ' .. quoted(value) .. ']' end
    if value.queued then return '["bulk", "QUEUED"]' end
    local items, count = {}, table.maxn(value)
    for at = 1, value.n or count do items[at] = told(value[at]) end
    return '["array", [' .. table.concat(items, ', ') .. ']]'
end

-- What LuaSocket's receive does: '*l' is a line up to LF, without any CR; a number is so many bytes.
local function socket_of(pieces)
    local text, at, is_over = '', 1, false
    for _, it in ipairs(pieces) do
        if it == 'end' then is_over = true else text = text .. it:gsub('%x%x', function(byte) return string.char(tonumber(byte, 16)) end) end
    end
    local socket = {}
    function socket:receive(what)
        local stop = type(what) == 'number' and at + what - 1 or text:find('\n', at, true)
        if not stop or stop > #text then return nil, is_over and 'closed' or 'dry' end
        local got = text:sub(at, stop)
        at = stop + 1
        return type(what) == 'number' and got or (got:gsub('[\r\n]', ''))
    end
    function socket:send() return 1 end
    return socket
end

for line in io.lines() do
    local id, list = line:match('^(%d+) %d (.*)$')
    local pieces, values, ending = {}, {}, nil
    for piece in list:gmatch('[^,]+') do pieces[#pieces + 1] = piece end
    local client = redis.connect({ socket = socket_of(pieces) })
    while not ending do
        local ok, value = pcall(client.raw_cmd, client, 'PING\r\n')
        if ok then
            values[#values + 1] = told(value)
        elseif tostring(value):find('redis error: ', 1, true) then
            values[#values + 1] = '["error", ' .. quoted(tostring(value):match('redis error: (.*)$')) .. ']'
        else
            ending = tostring(value):find('connection error', 1, true) and 'more' or 'error'
        end
    end
    print(('{"id": "%s", "values": [%s], "end": "%s"}'):format(id, table.concat(values, ', '), ending))
    io.flush()
end
