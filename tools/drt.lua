-- A dissector for DRT's eight messages, for Wireshark and tshark, written from the layout of document 000 (section 2.2), and of document 01 where it says
-- more: 1 to 4 addresses, which AUTHORITY is whole, what a REQUEST's split controls tell. No code of the gauge's stands behind it.
--
--     wireshark -X lua_script:tools/drt.lua                           datagrams that begin as DRT's do are shown as such
--     tshark -X lua_script:tools/drt.lua -d udp.port==3540,drt ..     those of a port
--     lua5.4 tools/drt.lua <FILE                                      by itself: FILE has a datagram a line, in hexadecimal digits (tests/outside/read)
--
-- What is wrong in a datagram is told where it stands, as an expert note: a length that is not allowed, a field that is missing or runs past the end, a
-- count or code outside its range, bytes left over. The major version is shown and not judged. Lua 5.1 to 5.4.

local drt = {}

---- Reading: d is the datagram, a string; places count from 0. What is read is a list of items, each with its place, length, name and value; an item
---- with parts has them in `of`. What is wrong is raised as a table, and ends the reading.

local function wrong(at, text, number)
    error({at = at, text = text, number = number or 6}, 0)
end

local function number_at(d, at, count)
    local n = 0
    for i = 1, count do
        n = n * 256 + d:byte(at + i)
    end
    return n
end

local function hex(s)
    return (s:gsub(".", function(c) return string.format("%02x", c:byte()) end))
end

local function bit_of(n, mask)
    return math.floor(n / mask) % 2
end

-- A field: number (2), length (2, counting these four), contents. Gives where the contents begin and how long they are.
local function field(d, at, number, name)
    if at + 2 > #d or number_at(d, at, 2) ~= number then
        wrong(at, string.format("%s (field %04X) is missing", name, number))
    end
    if at + 4 > #d then
        wrong(at, name .. " runs past the end")
    end
    local length = number_at(d, at + 2, 2)
    if length < 4 then
        wrong(at + 2, name .. " has a length below 4")
    end
    if at + length > #d then
        wrong(at + 2, name .. " runs past the end")
    end
    return at + 4, length - 4
end

local function found(d, at, number)
    return at + 2 <= #d and number_at(d, at, 2) == number
end

local function skip(d, at, count, name)
    if at + count > #d then
        wrong(at, "the padding behind " .. name .. " runs past the end")
    end
    return at + count
end

local function padded(d, at, name)
    return skip(d, at, (4 - at % 4) % 4, name)
end

---- Shapes of contents: each is handed the contents' place and length and adds its items to a list.

local function put(list, at, len, name, value)
    list[#list + 1] = {at = at, len = len, name = name, value = value}
end

local function bytes_of(size)
    return function(d, at, len, name, list)
        if size and len ~= size then
            wrong(at - 2, name .. " has another length than " .. (4 + size))
        end
        put(list, at, len, name, hex(d:sub(at + 1, at + len)))
    end
end

local function number_of(size)
    return function(d, at, len, name, list)
        if len ~= size then
            wrong(at - 2, name .. " has another length than " .. (4 + size))
        end
        put(list, at, len, name, number_at(d, at, size))
    end
end

-- Flags of two bytes: which bits have a name. `more` are bytes of the field behind them that are reserved.
local function flags(bits, more)
    return function(d, at, len, name, list)
        if len ~= 2 + (more or 0) then
            wrong(at - 2, name .. " has another length than " .. (6 + (more or 0)))
        end
        for _, bit in ipairs(bits) do
            put(list, at, 2, bit[1], bit_of(number_at(d, at, 2), bit[2]))
        end
    end
end

-- A route entry (2.2.3.3): key, versions, port, flags, 1 to 4 addresses.
local function route(d, at, len, name, list)
    if len < 38 then
        wrong(at - 2, "the route entry is too short")
    end
    local count = d:byte(at + 38)
    if count < 1 or count > 4 then
        wrong(at + 37, "the route entry has " .. count .. " addresses")
    end
    if len ~= 38 + 16 * count then
        wrong(at - 2, "the route entry's length does not agree with its addresses")
    end
    put(list, at, 32, "key", hex(d:sub(at + 1, at + 32)))
    put(list, at + 32, 1, "major", d:byte(at + 33))
    put(list, at + 33, 1, "minor", d:byte(at + 34))
    put(list, at + 34, 2, "port", number_at(d, at + 34, 2))
    put(list, at + 36, 1, "flags", d:byte(at + 37))
    for i = 0, count - 1 do
        put(list, at + 38 + 16 * i, 16, "address", hex(d:sub(at + 39 + 16 * i, at + 54 + 16 * i)))
    end
end

-- An array (2.2.2.2, 2.2.3.5, 2.2.3.6): how many, length, type and length of an entry, the entries.
local function array(element, size, least, most, entry)
    return function(d, at, len, name, list)
        if len < 8 then
            wrong(at - 2, name .. " is too short")
        end
        local count = number_at(d, at, 2)
        if count < least or count > most then
            wrong(at, name .. " has " .. count .. " entries")
        end
        if len ~= 8 + size * count or number_at(d, at + 2, 2) ~= 8 + size * count then
            wrong(at - 2, name .. "'s lengths do not agree with its entries")
        end
        if number_at(d, at + 4, 2) ~= element or number_at(d, at + 6, 2) ~= size then
            wrong(at + 4, name .. " has entries of another kind")
        end
        for i = 0, count - 1 do
            put(list, at + 8 + size * i, size, entry, hex(d:sub(at + 9 + size * i, at + 8 + size * (i + 1))))
        end
    end
end

-- LOOKUP's controls (2.2.2.8): flags, precision, criteria, reason, reserved.
local function lookup_controls(d, at, len, name, list)
    if len ~= 8 then
        wrong(at - 2, "the controls have another length than 12")
    end
    local criteria, reason = d:byte(at + 5), d:byte(at + 6)
    if not ({[0] = true, [1] = true, [2] = true, [4] = true, [8] = true})[criteria] then
        wrong(at + 4, "resolve criteria " .. criteria .. " is unknown")
    end
    if reason > 3 then
        wrong(at + 5, "resolve reason " .. reason .. " is unknown")
    end
    put(list, at, 2, "a", bit_of(number_at(d, at, 2), 2))
    if criteria == 8 then
        put(list, at + 2, 2, "precision", number_at(d, at + 2, 2))
    end
    put(list, at + 4, 1, "criteria", criteria)
    put(list, at + 5, 1, "reason", reason)
end

-- Split controls: of a REQUEST (2.2.2.3) the whole of what follows; of an AUTHORITY (2.2.2.6) whether it is whole.
local function split_request(d, at, len, name, list)
    if len ~= 4 then
        wrong(at - 2, "the split controls have another length than 8")
    end
    if number_at(d, at, 2) ~= #d - at - 4 or number_at(d, at + 2, 2) ~= 0 then
        wrong(at, "the split controls do not tell what follows")
    end
    put(list, at, 2, "size", number_at(d, at, 2))
    put(list, at + 2, 2, "offset", number_at(d, at + 2, 2))
end

local function split_authority(d, at, len, name, list)
    if len ~= 4 then
        wrong(at - 2, "the split controls have another length than 8")
    end
    local size, offset = number_at(d, at, 2), number_at(d, at + 2, 2)
    if size > 0x91E4 then
        wrong(at, "a buffer of " .. size .. " bytes is too long")
    end
    if offset % 1188 ~= 0 then
        wrong(at + 2, "the offset is no multiple of 1188")
    end
    put(list, at, 2, "size", size)
    put(list, at + 2, 2, "offset", offset)
    if offset ~= 0 or size ~= #d - at - 4 then
        wrong(at, "an AUTHORITY in part: the rest comes in another datagram", 7)
    end
end

---- The messages. A row: field number, name, its shape, and what is special: optional; padded to a multiple of 4; so many bytes of padding that are
---- always there; `either`, one and only one of which is there.

local KEY = bytes_of(32)
local KEYS = array(0x0030, 32, 0, 0x7FFF, "key")
local ENDPOINTS = array(0x009D, 18, 1, 22, "endpoint")
local OPAQUE = bytes_of(nil)
local ACKED = {0x0018, "acked", number_of(4)}
local ROUTE = {0x009A, "route", route, optional = true, pads = true}
local CREDENTIAL = {0x0080, "credential", OPAQUE, optional = true}
local SIGNATURE = {0x00A5, "signature", OPAQUE, optional = true}
local KEY_IDENTIFIER = {0x00A6, "key_identifier", OPAQUE, optional = true}

local MESSAGES = {
    [1] = {"SOLICIT", ROUTE, {0x0092, "hashed_nonce", bytes_of(20)}},
    [2] = {"ADVERTISE", ACKED, {0x0060, "keys", KEYS}, {0x0092, "hashed_nonce", bytes_of(20)}},
    [3] = {"REQUEST", {0x0040, "flags", flags({}), optional = true, behind = 2}, {0x0098, "split", split_request, optional = true},
           {0x0093, "nonce", bytes_of(16)}, {0x0060, "keys", KEYS}, CREDENTIAL, SIGNATURE, KEY_IDENTIFIER},
    [4] = {"FLOOD", {0x0043, "controls", flags({{"d", 1}}, 1), behind = 1}, {0x0039, "validate", KEY}, {0x009F, "keytoken", OPAQUE, optional = true, pads = true},
           {0x009C, "revoke", OPAQUE, optional = true, pads = true, either = true}, {0x009A, "route", route, optional = true, pads = true, either = true},
           {0x009E, "reached", ENDPOINTS, optional = true}},
    [7] = {"INQUIRE", {0x0040, "flags", flags({{"a", 0x10}, {"x", 8}, {"c", 4}}), behind = 2}, {0x0039, "validate", KEY},
           {0x0093, "nonce", bytes_of(16), optional = true}, CREDENTIAL, SIGNATURE, KEY_IDENTIFIER},
    [8] = {"AUTHORITY", ACKED, {0x0098, "split", split_authority}, {0x0040, "flags", flags({{"l", 0x200}, {"b", 8}, {"n", 1}}), behind = 2},
           {0x0080, "chain", OPAQUE, optional = true, pads = true}, {0x009F, "keytoken", OPAQUE, optional = true, pads = true},
           {0x0085, "classifier", array(0x0084, 2, 0, 0x7FFF, "unit"), optional = true, pads = true}, {0x005A, "payload", OPAQUE, optional = true, pads = true},
           ROUTE, {0x009B, "cpa", OPAQUE, optional = true}},
    [9] = {"ACK", ACKED, {0x0040, "flags", flags({{"n", 1}}), optional = true}},
    [11] = {"LOOKUP", {0x0045, "controls", lookup_controls}, {0x0038, "target", KEY}, {0x0039, "validate", KEY}, ROUTE, {0x009E, "path", ENDPOINTS},
            CREDENTIAL, SIGNATURE, KEY_IDENTIFIER},
}

-- One row read at a place; where the next begins, and whether the field was there.
local function row_read(d, at, row, items)
    local number, name, shape = row[1], row[2], row[3]
    if row.optional and not found(d, at, number) then
        return at, false
    end
    local start, len = field(d, at, number, name)
    local item = {at = at, len = len + 4, name = name, of = {}}
    items[#items + 1] = item
    shape(d, start, len, name, item.of)
    at = start + len
    at = skip(d, at, row.behind or 0, name)
    return row.pads and padded(d, at, name) or at, true
end

local function fields_read(d, kind, items)
    local at, either = 12, 0
    for i = 2, #MESSAGES[kind] do
        local row = MESSAGES[kind][i]
        local there
        at, there = row_read(d, at, row, items)
        if row.either then
            either = either + (there and 1 or 0)
            if row[2] == "route" and either ~= 1 then
                wrong(at, "a FLOOD has either a route entry or a revoke CPA, and this has " .. (either == 0 and "neither" or "both"))
            end
        end
    end
    if at < #d then
        wrong(at, "bytes left over behind the last field")
    end
end

-- A datagram: its kind by name, its items, and what is wrong with it or nil.
function drt.read(d)
    local items, name = {}, nil
    local good, fault = pcall(function()
        if #d < 12 or #d > 1232 then
            wrong(0, "a datagram has 12 to 1232 bytes", 2)
        end
        if d:sub(1, 5) ~= "\0\16\0\12\81" then
            wrong(0, "the header does not begin with 00 10 00 0C 51", 3)
        end
        put(items, 5, 1, "major", d:byte(6))
        put(items, 6, 1, "minor", d:byte(7))
        local kind = d:byte(8)
        put(items, 7, 1, "type", kind)
        put(items, 8, 4, "id", number_at(d, 8, 4))
        if not MESSAGES[kind] then
            wrong(7, "type " .. kind .. " is unknown", 5)
        end
        name = MESSAGES[kind][1]
        fields_read(d, kind, items)
    end)
    if not good and type(fault) ~= "table" then
        error(fault, 0)
    end
    return name, items, not good and fault or nil
end

---- For Wireshark.

local TITLES = {major = "Version major", minor = "Version minor", type = "Message type", id = "Message ID", acked = "Acked ID", key = "Key",
                port = "Port", flags = "Flags", address = "Address", route = "Route entry", validate = "Validate key", target = "Target key",
                revoke = "Revoke CPA", cpa = "CPA", nonce = "Nonce", hashed_nonce = "Hashed nonce", keys = "Keys", split = "Split controls",
                size = "Size", offset = "Offset", payload = "Payload", chain = "Certificate chain", keytoken = "Keytoken", classifier = "Classifier",
                reached = "Already reached", path = "Path", endpoint = "Endpoint", credential = "Credential", signature = "Signature",
                key_identifier = "Key identifier", controls = "Controls", criteria = "Resolve criteria", reason = "Resolve reason",
                precision = "Precision", d = "Don't send ACK (D)", a = "A", x = "X", c = "C", l = "L", b = "B", n = "N", unit = "Unit"}

local function shown(item)
    local title = TITLES[item.name] or item.name
    if item.value == nil then
        return title
    end
    if item.name == "type" then
        return string.format("%s: %s (%d)", title, MESSAGES[item.value] and MESSAGES[item.value][1] or "unknown", item.value)
    end
    if item.name == "id" or item.name == "acked" then
        return string.format("%s: 0x%08x", title, item.value)
    end
    return title .. ": " .. tostring(item.value)
end

local function register()
    local proto = Proto("drt", "Distributed Routing Table")
    local kind = ProtoField.uint8("drt.type", "Message type", base.DEC)
    local id = ProtoField.uint32("drt.id", "Message ID", base.HEX)
    local item_field = ProtoField.bytes("drt.field", "Field")
    proto.fields = {kind, id, item_field}
    local malformed = ProtoExpert.new("drt.malformed", "Malformed", expert.group.MALFORMED, expert.severity.ERROR)
    local in_part = ProtoExpert.new("drt.part", "In part", expert.group.REASSEMBLE, expert.severity.NOTE)
    proto.experts = {malformed, in_part}

    local function add(tree, items, tvb)
        for _, item in ipairs(items) do
            local field_of = item.name == "type" and kind or item.name == "id" and id or item_field
            local branch = tree:add(field_of, tvb(item.at, item.len))
            branch:set_text(shown(item))
            if item.of then
                add(branch, item.of, tvb)
            end
        end
    end

    function proto.dissector(tvb, pinfo, tree)
        local name, items, fault = drt.read(tvb:raw())
        pinfo.cols.protocol = "DRT"
        pinfo.cols.info = (name or "no message") .. (fault and (fault.number == 7 and " [in part]" or " [malformed]") or "")
        local top = tree:add(proto, tvb(), "Distributed Routing Table, " .. (name or "no message"))
        add(top, items, tvb)
        if fault then
            top:add_tvb_expert_info(fault.number == 7 and in_part or malformed, tvb(math.min(fault.at, tvb:len() - 1), 1), fault.text)
        end
        return tvb:len()
    end

    proto:register_heuristic("udp", function(tvb, pinfo, tree)
        if tvb:len() < 12 or tvb:raw(0, 5) ~= "\0\16\0\12\81" then
            return false
        end
        proto.dissector(tvb, pinfo, tree)
        return true
    end)
    DissectorTable.get("udp.port"):add_for_decode_as(proto)
end

---- By itself: a line for each datagram, its number (0 good, 2, 3, 5, 6, 7 as document 01 has them; 4 is the host's) and, where it is good, what was read.

local function words(items, before, list)
    for _, item in ipairs(items) do
        list[#list + 1] = before .. item.name .. (item.value ~= nil and "=" .. tostring(item.value) or "")
        if item.of then
            words(item.of, before .. item.name .. ".", list)
        end
    end
    return list
end

local function by_itself()
    for line in io.lines() do
        local d = line:gsub("%s", ""):gsub("..", function(two) return string.char(tonumber(two, 16)) end)
        local name, items, fault = drt.read(d)
        if fault then
            print(string.format("%d at %d: %s", fault.number, fault.at, fault.text))
        else
            print("0 " .. name .. " " .. table.concat(words(items, "", {}), " "))
        end
    end
end

if Proto then
    register()
else
    by_itself()
end
