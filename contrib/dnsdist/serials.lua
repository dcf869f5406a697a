-- Which servers are behind: loaded by dnsdist.conf, which gives it the servers by their addresses. Each is asked for the SOA of `bit.`
-- in each second, whose serial is the height of its tip; one that is behind the foremost one by too much isn't asked by others.
local ffi = require("ffi")

ffi.cdef([[
int socket(int domain, int type, int protocol);
int connect(int fd, const void *address, unsigned length);
long send(int fd, const void *bytes, unsigned long length, int flags);
long recv(int fd, void *bytes, unsigned long length, int flags);
int inet_pton(int family, const char *text, void *bytes);
int usleep(unsigned microseconds);
]])

-- Of Linux.
local INET, INET6, DATAGRAMS, AT_ONCE = 2, 10, 2, 0x40
local LONGEST = 4096
-- A serial that is older than so many seconds isn't compared.
local FRESH = 3
-- A header with one question, without its ID; and the question for the SOA of `bit.` (RFC 1035, 4.1).
local REST = "\0\0\0\1\0\0\0\0\0\0\3bit\0\0\6\0\1"

-- The bytes of an address of a socket: struct sockaddr_in or sockaddr_in6.
local function socket_address(text)
    local host, port = text:match("^%[?([^%]]+)%]?:(%d+)$")
    local family = host:find(":") and INET6 or INET
    local bytes = ffi.new("uint8_t[28]")
    ffi.cast("uint16_t *", bytes)[0] = family
    bytes[2], bytes[3] = math.floor(port / 256), port % 256
    if ffi.C.inet_pton(family, host, bytes + (family == INET and 4 or 8)) ~= 1 then
        error(text .. " is no address")
    end
    return family, bytes, family == INET and 16 or 28
end

local function connected(text)
    local family, bytes, length = socket_address(text)
    local line = ffi.C.socket(family, DATAGRAMS, 0)
    ffi.C.connect(line, bytes, length)
    return line
end

-- A number at the end of a text: four bytes that end so many bytes before its end.
local function number_before_end(text, behind)
    local one, two, three, four = text:byte(-behind - 4, -behind - 1)
    return ((one * 256 + two) * 256 + three) * 256 + four
end

-- The serial in a reply; nil where it isn't a good answer. Behind the serial a SOA has four numbers more.
local function serial_of(reply, number)
    if #reply < 32 then
        return nil
    end
    local high, low, flags, code, _, _, _, answers = reply:byte(1, 8)
    local is_good = high * 256 + low == number and flags >= 0x80 and code % 16 == 0 and answers == 1
    return is_good and number_before_end(reply, 16) or nil
end

local function asks(peer)
    peer.number = (peer.number + 1) % 65536
    local text = string.char(math.floor(peer.number / 256), peer.number % 256) .. REST
    ffi.C.send(peer.line, text, #text, AT_ONCE)
end

local function hears(peer, now)
    local room = ffi.new("uint8_t[?]", LONGEST)
    local length = tonumber(ffi.C.recv(peer.line, room, LONGEST, AT_ONCE))
    while length >= 0 do
        local serial = serial_of(ffi.string(room, length), peer.number)
        if serial then
            peer.serial, peer.heard = serial, now
        end
        length = tonumber(ffi.C.recv(peer.line, room, LONGEST, AT_ONCE))
    end
end

-- Takes out those that are behind the foremost one by more than so many blocks, and lets those back that aren't any more.
local function judges(peers, now, most_behind)
    local foremost = 0
    for _, peer in ipairs(peers) do
        if now - peer.heard <= FRESH then
            foremost = math.max(foremost, peer.serial)
        end
    end
    for _, peer in ipairs(peers) do
        local is_behind = now - peer.heard <= FRESH and foremost - peer.serial > most_behind
        if is_behind and not peer.is_out then
            peer.server:setDown()
            warnlog(peer.name .. " is at height " .. peer.serial .. ", and another server at " .. foremost .. ": it isn't asked")
        elseif peer.is_out and not is_behind and now == peer.heard then
            peer.server:setAuto()
            infolog(peer.name .. " is at height " .. peer.serial .. ": it is asked again")
        else
            is_behind = peer.is_out
        end
        peer.is_out = is_behind
    end
end

-- Gives what is to be done each second. Once it is done at the start, with some time for the replies, so that nobody who is behind is
-- asked from then on.
return function(servers, most_behind)
    local peers = {}
    for address, server in pairs(servers) do
        peers[#peers + 1] = { name = address, server = server, line = connected(address), number = 0, serial = 0, heard = -FRESH - 1, is_out = false }
    end
    local now = 0
    local function look()
        now = now + 1
        for _, peer in ipairs(peers) do
            hears(peer, now)
        end
        judges(peers, now, most_behind)
        for _, peer in ipairs(peers) do
            asks(peer)
        end
    end
    look()
    ffi.C.usleep(200000)
    look()
    return look
end
