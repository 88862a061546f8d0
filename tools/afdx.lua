-- Wireshark: fields of AFDX frames (ARINC 664 Part 7). docs/TOOLS.md says what each means.
--
--     tshark -X lua_script:tools/afdx.lua -r run.pcap -Y 'afdx.step > 1'
--
-- `bin/install PREFIX` puts it at PREFIX/lib/wireshark/plugins/afdx.lua. It reads what stands in
-- the frames and their comments, and judges nothing: verdicts are lines of the program, which
-- `afdx-capture annotate` writes as comments of the frames.

local afdx = Proto("afdx", "AFDX (ARINC 664 Part 7)")

local fields = {
    vl = ProtoField.uint16("afdx.vl", "Virtual link"),
    side = ProtoField.string("afdx.side", "Network"),
    system = ProtoField.uint16("afdx.system", "Number of the sending system"),
    partition = ProtoField.uint8("afdx.partition", "Partition"),
    seq = ProtoField.uint8("afdx.seq", "Sequence number"),
    step = ProtoField.int16("afdx.step", "Steps since the link's number before on this network"),
    gap = ProtoField.double("afdx.gap_ms", "Gap to the link's frame before on this network, in ms"),
    switch = ProtoField.string("afdx.switch", "Switch, of several"),
    port = ProtoField.uint8("afdx.port", "Port of the switch, of several"),
    verdict = ProtoField.string("afdx.verdict", "Verdict of the switch"),
    lost = ProtoField.string("afdx.lost", "Lost to a full buffer, at"),
    too_old = ProtoField.string("afdx.too_old", "Dropped for its age, at"),
    refused = ProtoField.string("afdx.refused", "Dropped by a receiver, as"),
    latency = ProtoField.double("afdx.latency_us", "Latency of a copy, in us"),
    share = ProtoField.double("afdx.share", "Share of the configured latency, in %"),
    conform = ProtoField.string("afdx.conform", "What conform said"),
    message = ProtoField.string("afdx.message", "Messages of the link"),
    sender = ProtoField.string("afdx.sender", "Name of the sending system"),
}
afdx.fields = {
    fields.vl, fields.side, fields.system, fields.partition, fields.seq, fields.step, fields.gap,
    fields.switch, fields.port, fields.verdict, fields.lost, fields.too_old, fields.refused,
    fields.latency, fields.share, fields.conform, fields.message, fields.sender,
}

local experts = {
    missing = ProtoExpert.new("afdx.missing", "Sequence numbers are missing",
        expert.group.SEQUENCE, expert.severity.WARN),
    back = ProtoExpert.new("afdx.back", "The sequence number goes back",
        expert.group.SEQUENCE, expert.severity.WARN),
    repeated = ProtoExpert.new("afdx.repeated", "The sequence number before comes again",
        expert.group.SEQUENCE, expert.severity.WARN),
    reset = ProtoExpert.new("afdx.reset", "Number 0: the sender began anew",
        expert.group.SEQUENCE, expert.severity.NOTE),
    no_side = ProtoExpert.new("afdx.no_side", "The source address names neither network",
        expert.group.PROTOCOL, expert.severity.WARN),
    short = ProtoExpert.new("afdx.short", "Shorter than a frame is: no sequence number is read",
        expert.group.MALFORMED, expert.severity.WARN),
    cut = ProtoExpert.new("afdx.cut", "The recording has a part of the frame: no sequence number",
        expert.group.UNDECODED, expert.severity.WARN),
}
afdx.experts = {
    experts.missing, experts.back, experts.repeated, experts.reset, experts.no_side, experts.short,
    experts.cut,
}

local AUTO, YES, NO = 0, 1, 2
afdx.prefs.fcs = Pref.enum("Frames end with a check sequence", AUTO,
    "Auto looks at the frames themselves",
    { { 1, "Auto", AUTO }, { 2, "Yes", YES }, { 3, "No", NO } }, false)

afdx.prefs.names = Pref.string("Table of names", "",
    "The file that afdx-icd writes beside a configuration, as net.names.csv")

local CONSTANT = "\3\0\0\0"    -- a destination address of a virtual link begins with it
local SIDES = { [0x20] = "A", [0x40] = "B" }
local LOOKED_AT = 10           -- frames in which check sequences are looked for
local SHORTEST = 60            -- bytes of the shortest frame without its check sequence
local MOST_STEPS = 127         -- forward from one number to another
local LONGEST = 1518           -- bytes of the longest frame with it; what is longer is no AFDX

-- Of several switches a frame stands there once for each to which it came, at an interface such as
-- `A fwd port 3`. Of each interface's name: its switch and its port, or false for another name.
local interface_name = Field.new("frame.interface_name")
local places

-- Of each link on each network, of several switches at each: true once a right check sequence was
-- found, frames whose check sequence was computed, time and number of the frame before.
local sealed, looked, last_time, last_seq
-- Of all frames: was a right check sequence found, of how many frames was it computed?
local found, tried
-- Of each frame, by its number: what the frame before it tells.
local gaps, steps, begins

-- The preferences, kept here: to ask for them at each frame would be slow. Names are those of the
-- table, of systems by their numbers, of messages by those of their links.
local fcs = AUTO
local system_names, message_names = {}, {}

-- The cells of a line of that table, which afdx-icd wrote: quoted ones have quotes and commas.
local function cells_of(line)
    local cells, rest = {}, line:gsub("\r$", "") .. ","
    while #rest > 0 do
        local cell, more = rest:match('^"(.-)",(.*)$')
        while cell and select(2, cell:gsub('"', "")) % 2 == 1 do -- that quote was one of the text
            local part, behind = more:match('^(.-)",(.*)$')
            if not part then return {} end
            cell, more = cell .. '",' .. part, behind
        end
        if not cell then cell, more = rest:match("^([^,]*),(.*)$") end
        cells[#cells + 1], rest = cell:gsub('""', '"'), more
    end
    return cells
end

local function read_names(path)
    system_names, message_names = {}, {}
    local file = path ~= "" and io.open(path)
    if not file then return end
    for line in file:lines() do
        local part, _, number, _, called = (table.unpack or unpack)(cells_of(line))
        number = tonumber(number)
        if part == "system" and number and called then
            system_names[number] = called
        elseif part == "message" and number and called then
            local before = message_names[number]
            message_names[number] = before and before .. ", " .. called or called
        end
    end
    file:close()
end

local function heed_preferences()
    fcs = afdx.prefs.fcs
    read_names(afdx.prefs.names)
end

function afdx.prefs_changed()
    heed_preferences()
end

function afdx.init()
    heed_preferences()
    sealed, looked, last_time, last_seq = {}, {}, {}, {}
    gaps, steps, begins, places = {}, {}, {}, {}
    found, tried = false, 0
end

-- ---- does a frame end with a check sequence? -------------------------------------------------

-- Operations on bits: bit32 is Lua 5.2's; Wireshark brings the other, with numbers below zero too.
local bits = bit32 or bit

local crc_table = {}
for byte = 0, 255 do
    local rest = byte
    for _ = 1, 8 do
        local half = bits.rshift(rest, 1)
        rest = rest % 2 == 1 and bits.bxor(half, 0xEDB88320) or half
    end
    crc_table[byte] = rest
end

-- Do the last four of these bytes hold the check sequence of the others?
local function is_sealed(bytes)
    if #bytes < 5 then return false end
    local rest = 0xFFFFFFFF
    for place = 1, #bytes - 4 do
        local byte = bytes:byte(place)
        rest = bits.bxor(bits.rshift(rest, 8), crc_table[bits.bxor(rest % 256, byte)])
    end
    local a, b, c, d = bytes:byte(-4, -1)
    return bits.bnot(rest) % 0x100000000 == a + b * 0x100 + c * 0x10000 + d * 0x1000000
end

-- By its form alone: after the datagram stand padding, which is zero, and the sequence number; so
-- what isn't zero before the last byte belongs to a check sequence. No room for one: there is none.
local function looks_sealed(tvb, length)
    if length < SHORTEST + 4 or tvb(12, 2):uint() ~= 0x0800 then return false end
    local after = 14 + tvb(16, 2):uint()
    if length - after < 5 then return false end
    return tvb:raw(length - 5, 4) ~= "\0\0\0\0"
end

-- One right check sequence tells it for all frames of the link on that network, which were recorded
-- at one place; until then each frame tells it for itself. Where none of the first is right, there
-- are none, and padding isn't zero.
local function has_check_sequence(tvb, length, key)
    if fcs ~= AUTO then return fcs == YES end
    if sealed[key] then return true end
    local count = looked[key] or 0
    if count < LOOKED_AT then
        looked[key], tried = count + 1, tried + 1
        if is_sealed(tvb:raw(0, length)) then
            sealed[key], found = true, true
            return true
        end
    end
    return (found or tried < LOOKED_AT) and looks_sealed(tvb, length)
end

-- ---- what came before on a link --------------------------------------------------------------

-- Steps from one number of a link to a later one: 0, 1, .. 255, 1, ..; none leads to 0. What would
-- be more than half of the round is a way back, below 0.
local function steps_between(before, seq)
    if seq == 0 then return nil end
    local steps, round = (seq - before) % 255, 255
    if before == 0 then steps, round = seq, 256 end
    return steps > MOST_STEPS and steps - round or steps
end

-- Notes a frame that is seen for the first time. Frames are first seen in the file's order.
local function note(number, key, seq, time)
    local before = last_time[key]
    if before then
        gaps[number] = math.floor((time - before) * 1e9 + 0.5) / 1e6
        steps[number] = steps_between(last_seq[key], seq)
        begins[number] = seq == 0 or nil
    end
    last_time[key], last_seq[key] = time, seq
end

-- Adds a field of the frame's bytes, where a column, a filter or the tree shows it.
local function add(tree, field, tvb, place, count, value)
    if not tree:referenced(field) then return end
    if value then
        tree:add(field, tvb(place, count), value)
    else
        tree:add(field, tvb(place, count))
    end
end

local function add_history(tree, number)
    local gap, step = gaps[number], steps[number]
    if gap and tree:referenced(fields.gap) then tree:add(fields.gap, gap):set_generated() end
    if step == 1 and not tree:referenced(fields.step) then return end -- nothing is odd about it
    if step then
        local item = tree:add(fields.step, step):set_generated()
        if step == 0 then
            item:add_proto_expert_info(experts.repeated)
        elseif step > 1 then
            item:add_proto_expert_info(experts.missing, (step - 1) .. " sequence numbers missing")
        elseif step < 0 then
            item:add_proto_expert_info(experts.back, "The sequence number goes back by " .. -step)
        end
    elseif begins[number] then
        tree:add_proto_expert_info(experts.reset)
    end
end

-- ---- where it came in ------------------------------------------------------------------------

-- The switch and the port of the frame's interface, if it is named as one of several switches.
local function place_of()
    local found = interface_name()
    if not found then return false end
    local name = tostring(found)
    if places[name] == nil then
        local switch, port = name:match("^[AB] (%w+) port (%d+)$")
        places[name] = switch and { switch = switch, port = tonumber(port) } or false
    end
    return places[name]
end

-- ---- what `annotate` wrote beside a frame ----------------------------------------------------

local comments_of = Field.new("frame.comment")
local JUDGED = {}
for word in ("stopped passed late early strange unsure"):gmatch("%a+") do JUDGED[word] = true end
for word in ("unlawful number soon differs apart single"):gmatch("%a+") do JUDGED[word] = true end

-- A comment: the program's lines about the frame (V, L, T, X), `latency NS of NS ns at PLACE` of
-- each copy, what `conform` said, what the link is called.
local function add_comment(tree, text)
    local word, rest = text:match("^(%w+) (.*)$")
    if word == "V" then
        local reason = rest:match("^%d+ [AB] (.*)$")
        tree:add(fields.verdict, reason and (reason:match("drop (%S+)$") or reason:match("%S+$")))
    elseif word == "L" then
        tree:add(fields.lost, rest:match("^%d+ (.*)$"))
    elseif word == "T" then
        tree:add(fields.too_old, rest:match("^%d+ %d+ (.*)$"))
    elseif word == "X" then
        local reason = rest:match("(%S+)$")
        if reason ~= "redundant" then tree:add(fields.refused, reason) end
    elseif word == "latency" then
        local took, most = rest:match("^(%d+) of (%d+) ns")
        tree:add(fields.latency, took / 1000)
        tree:add(fields.share, math.floor(took * 100000 / most + 0.5) / 1000)
    elseif word == "called" then
        tree:add(fields.message, rest)
    elseif JUDGED[word] then
        tree:add(fields.conform, word)
    end
end

-- Adds what the comments say; true where one has the names of the link's messages.
local function add_comments(tree)
    local is_called = false
    for _, comment in ipairs({ comments_of() }) do
        local text = tostring(comment)
        pcall(add_comment, tree, text) -- another's comments may have any form
        is_called = is_called or text:match("^called ") ~= nil
    end
    return is_called
end

-- The names of the table, where no comment has them.
local function add_names(tree, vl, system, is_called)
    local message, sender = message_names[vl], system_names[system]
    if message and not is_called then tree:add(fields.message, message):set_generated() end
    if sender then tree:add(fields.sender, sender):set_generated() end
end

-- ---- a frame ---------------------------------------------------------------------------------

local function add_addresses(tree, tvb, head, side)
    add(tree, fields.vl, tvb, 4, 2)
    if side then
        add(tree, fields.side, tvb, 11, 1, side)
    else
        tree:add_proto_expert_info(experts.no_side)
    end
    add(tree, fields.system, tvb, 9, 2)
    if #head == 30 and head:sub(13, 15) == "\8\0\69" then
        add(tree, fields.partition, tvb, 29, 1)
    end
end

-- The sequence number and what it tells; nothing where the frame isn't all there.
local function add_number(tree, tvb, length, pinfo, key)
    if tvb:reported_len() > length then
        tree:add_proto_expert_info(experts.cut)
        return nil
    end
    local size = length - (has_check_sequence(tvb, length, key) and 4 or 0)
    if size < SHORTEST then
        tree:add_proto_expert_info(experts.short)
        return nil
    end
    local seq, number = tvb:raw(size - 1, 1):byte(), pinfo.number
    add(tree, fields.seq, tvb, size - 1, 1)
    if not pinfo.visited then note(number, key, seq, pinfo.rel_ts) end
    add_history(tree, number)
    return seq
end

function afdx.dissector(tvb, pinfo, root)
    local length = tvb:len()
    if length < 14 or tvb:reported_len() > LONGEST then return end
    local head = tvb:raw(0, length < 30 and length or 30)
    if head:sub(1, 4) ~= CONSTANT then return end

    local high, low, network = head:byte(5), head:byte(6), head:byte(12)
    local vl, side = high * 256 + low, SIDES[network]
    local name = "VL " .. vl .. " " .. (side or "?")
    local tree = root:add(afdx, tvb(), "AFDX, " .. name)
    add_addresses(tree, tvb, head, side)
    local key, place = vl * 256 + network, place_of()
    if place then
        key = place.switch .. " " .. key
        tree:add(fields.switch, place.switch):set_generated()
        tree:add(fields.port, place.port):set_generated()
    end
    add_names(tree, vl, head:byte(10) * 256 + head:byte(11), add_comments(tree))
    local seq = add_number(tree, tvb, length, pinfo, key)
    if seq then name = name .. " #" .. seq end
    local columns = pinfo.cols
    columns.protocol = "AFDX"
    columns.info:prepend(name .. " ")
end

register_postdissector(afdx)

-- ---- what follows a datagram ----------------------------------------------------------------

-- Padding of zeros with the sequence number after it is taken for a trailer of an AFDX frame. Else
-- Wireshark notes at each short frame that its padding isn't zero, and takes the end of a frame
-- whose recording doesn't say otherwise for a check sequence.
local FIRST, LAST = Address.ether("03:00:00:00:00:00"), Address.ether("03:00:00:00:ff:ff")
local ZEROS = ("\0"):rep(1518)

local function is_padding(tvb, pinfo)
    local to, zeros = pinfo.dl_dst, tvb:len() - 1
    if to < FIRST or to > LAST or zeros > #ZEROS then return false end
    return zeros == 0 or tvb:raw(0, zeros) == ZEROS:sub(1, zeros)
end

afdx:register_heuristic("eth.trailer", is_padding)
