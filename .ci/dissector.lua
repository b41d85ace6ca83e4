-- A dissector of Wireshark for the radio messages on the connections of trains (ETCS, SUBSET-026 chapters 7 and 8).
-- Made by `.ci/names --write` from crates/text_fields/src and .ci/dissector.lua: change those, and not this file.
-- docs/FORMATS.md has its use, its filters and its limits. It shows; it decides nothing.

-- TABLES

local etcs = Proto("etcs_rbc", "ETCS radio messages of an RBC")
etcs.prefs.ports = Pref.range("TCP ports", "21000-21007", "The ports at which centres listen for trains", 65535)

local NID_MESSAGE = {name = "NID_MESSAGE", width = 8, kind = "Message"}
local NID_PACKET = {name = "NID_PACKET", width = 8, kind = "Packet"}
local L_PACKET = {name = "L_PACKET", width = 13, kind = "Count", unit = "bits"}

-- A whole number of Lua, or a UInt64, in decimal digits.
local function digits(value)
  return type(value) == "number" and ("%.0f"):format(value) or tostring(value)
end

-- The fields as Wireshark knows them, by their names in the standard, and those that take values of 64 bits.
local fields, are_long = {}, {}

local function register(part)
  local name = part.name
  if fields[name] then return end
  are_long[name] = part.width > 32
  local make = are_long[name] and ProtoField.uint64 or ProtoField.uint32
  fields[name] = make("etcs_rbc." .. name:lower(), name, base.DEC, part.words)
end

local function register_all(parts)
  for _, part in ipairs(parts) do
    if part.fields then register_all(part.fields) elseif part.name then register(part) end
  end
end

register({name = "NID_MESSAGE", width = 8, words = WORDS.MESSAGES})
register(NID_PACKET)
register(L_PACKET)
register({name = "bits", width = 64})
register({name = "filling", width = 8})
for _, body in pairs(MESSAGES) do register_all(body.parts) end
for _, side in ipairs({TRAIN, CENTRE}) do
  register_all(side.header)
  register_all(side.before_length)
  for _, layout in pairs(side.layouts) do register_all(layout) end
end
fields.packet = ProtoField.none("etcs_rbc.packet", "Packet")
etcs.fields = fields

local experts = {cut = ProtoExpert.new("etcs_rbc.cut", "the capture cut off the rest", expert.group.UNDECODED,
  expert.severity.WARN)}
for name, fault in pairs(FAULTS) do
  local is_soft = name == "UnknownNumber" or name == "Value"
  local words = name:gsub("(%l)(%u)", "%1_%2"):lower()
  experts[name] = ProtoExpert.new("etcs_rbc.fault." .. words, fault.words, expert.group.PROTOCOL,
    is_soft and expert.severity.WARN or expert.severity.ERROR)
end
etcs.experts = experts

-- The walk over the bits of one message, which notes its fields and its first fault.
local Walk = {}
Walk.__index = Walk

function Walk.over(bytes)
  local bits = 8 * bytes:len()
  local walk = {bytes = bytes, at = 0, all = bits, stop = bits, scale = 0, last = 0, shown = {}, notes = {}}
  return setmetatable(walk, Walk)
end

-- How many bits of the packet or the message are left.
function Walk:room() return self.stop - self.at end

-- Notes a place, as the count of the fields before it, if it is the first of its kind.
function Walk:note(name, count)
  self.notes[name] = self.notes[name] or count or #self.shown
end

-- Keeps the first fault.
function Walk:fail(name)
  self.fault = self.fault or name
end

local REFUSES = {}
function REFUSES.Words(part, value) return part.words[value] == nil end
function REFUSES.Only(part, value) return digits(value) ~= part.only end
function REFUSES.TrainTime(_, value) return value == UNKNOWN_TIME end
function REFUSES.CentreTime(_, value) return value == UNKNOWN_TIME end
function REFUSES.Filling(_, value) return value ~= 0 end

-- Notes the next bits as this field. Returns whether they are there, and whether their value is refused.
function Walk:take(part, width)
  width = width or part.width
  if self:room() < width then return false end
  local value = self.bytes:bitfield(self.at, width)
  local packet = part.kind == "Packet" and value or self.packet
  self.shown[#self.shown + 1] = {part = part, width = width, value = value, from = self.at, packet = packet,
    scale = self.scale}
  self.at = self.at + width
  local refuses = REFUSES[part.kind]
  local is_refused = refuses ~= nil and refuses(part, value)
  if is_refused then self:note("refused") end
  if part.name == "Q_SCALE" then self.scale = value end
  self.last = value
  return true, is_refused
end

-- Notes the parts of a layout. Returns whether all of them were there and are known.
function Walk:parts(parts)
  for _, part in ipairs(parts) do
    if part.known then
      if self.last ~= part.known then return false end
    elseif part.fields then
      if part.when[self.last] and not self:parts(part.fields) then return false end
    else
      local is_there, is_refused = self:take(part)
      if not is_there then return false end
      if is_refused then self:fail("Value") end
    end
  end
  return true
end

-- Notes the bits that are left of the packet or the message, without a meaning.
function Walk:unread()
  while self:room() > 0 do self:take({name = "bits", kind = "Bits"}, math.min(self:room(), MOST)) end
end

-- Notes the rest of a packet's header, and finds its end. Returns whether there is one, and whether Q_DIR is refused.
function Walk:packet_end(side, begun)
  local is_refused = false
  for _, part in ipairs(side.before_length) do
    local is_there, refused = self:take(part)
    if not is_there then return false end
    is_refused = is_refused or refused
  end
  if not self:take(L_PACKET) then return false end
  local rest = self.last - (self.at - begun)
  if rest < 0 or rest > self:room() then return false end
  self.stop = self.at + rest
  return true, is_refused
end

function Walk:packet_fields(side)
  self:take(NID_PACKET)
  self.packet = self.last
  local layout = side.layouts[self.packet]
  local has_end, is_refused = self:packet_end(side, self.at - 8)
  if is_refused then self:fail("Value") end
  if not has_end or layout and (not self:parts(layout) or self:room() > 0) then
    self:note("wrong")
    self:fail("Packet")
  end
  self:unread()
  self.stop, self.packet, self.scale = self.all, nil, 0
end

-- Notes a packet that has to be there: one of these numbers.
function Walk:required(side, wanted)
  local is_there = self:room() >= 8 and wanted[self.bytes:bitfield(self.at, 8)]
  if not is_there then
    self:note("missing")
    self:fail("Missing")
  end
  if self:room() >= 8 then self:packet_fields(side) end
end

-- Notes further packets, as long as 8 bits or more are left.
function Walk:further(side)
  while self:room() >= 8 do
    local count, is_second = #self.shown, side == TRAIN and self.bytes:bitfield(self.at, 8) == 0
    if is_second then self:fail("Value") end
    self:packet_fields(side)
    if is_second then self:note("refused", count + 1) end
  end
end

-- The header and the fixed fields of a message in whole bytes.
local function least_length(side, body)
  local bits = 8
  for _, parts in ipairs({side.header, body.parts}) do
    for _, part in ipairs(parts) do bits = bits + part.width end
  end
  return math.floor((bits + 7) / 8)
end

-- The fault of a message's start: its number, or its length against that of the bytes.
function Walk:start_fault(side, body)
  local length = self.bytes:len()
  if length < 3 then return "Short" end
  local l_message = self.bytes:bitfield(8, 10)
  if not body then return "UnknownNumber" end
  if l_message < least_length(side, body) then return "Length" end
  if length < l_message then return "Short" end
  return l_message < length and "Length" or nil
end

function Walk:message()
  self:take(NID_MESSAGE)
  local side, body = self.last < 128 and CENTRE or TRAIN, MESSAGES[self.last]
  self.side, self.fault = side, self:start_fault(side, body)
  if self:parts(side.header) and body and self:parts(body.parts) then
    for _, wanted in ipairs(body.packets) do self:required(side, wanted) end
    if side == CENTRE and self:room() >= 8 then
      self:note("beyond")
      self:fail("Length")
    end
    self:further(side)
    if self:room() > 0 then
      local _, is_refused = self:take({name = "filling", kind = "Filling"}, self:room())
      if is_refused then self:fail("Padding") end
    end
  end
  self:unread()
  return self
end

-- How many fields are shown before the fault.
function Walk:place()
  local all, notes, place = #self.shown, self.notes, nil
  if self.fault == "UnknownNumber" then
    place = 1
  elseif self.fault == "Length" then
    local second = self.shown[2]
    place = second and second.value == self.bytes:len() and notes.beyond or 2
  elseif self.fault == "Packet" then
    place = notes.wrong
  elseif self.fault == "Missing" then
    place = notes.missing
  elseif self.fault == "Value" then
    place = notes.refused
  end
  return math.min(place or all, all)
end

-- The meaning of a shown field, or nil if its value means no more than itself.
local MEANINGS = {}

function MEANINGS.Number() return nil end

function MEANINGS.Message(it) return WORDS.MESSAGES[it.value] or "unknown message" end

function MEANINGS.Packet(it, walk) return walk.side.names[it.value] or "unknown packet" end

-- A count, so many of a unit each.
local function amount(count, each, unit) return ("%s %s"):format(digits(each * count), unit) end

function MEANINGS.Count(it) return amount(it.value, 1, it.part.unit) end

function MEANINGS.Words(it) return it.part.words[it.value] or REFUSED end

function MEANINGS.Only(it) return digits(it.value) == it.part.only and it.part.meaning or REFUSED end

function MEANINGS.TrainTime(it)
  if it.value == UNKNOWN_TIME then return "unknown" end
  return amount(it.value, 10, "ms on board")
end

function MEANINGS.CentreTime(it)
  return it.value == UNKNOWN_TIME and "unknown" or "count of the centre's messages to the train"
end

function MEANINGS.OtherTime(it)
  return it.value == UNKNOWN_TIME and "unknown" or "of the message that it answers"
end

function MEANINGS.Group(it)
  if it.value == UNKNOWN_GROUP then return "unknown" end
  return ("group %s of NID_C %s"):format(digits(it.value % 16384), digits(math.floor(it.value / 16384)))
end

function MEANINGS.Distance(it)
  local value = it.value
  if value == UNKNOWN_DISTANCE then return "unknown" end
  if it.scale == 0 then return ("%s.%s m"):format(digits(math.floor(value / 10)), digits(value % 10)) end
  if it.scale == 1 then return amount(value, 1, "m") end
  if it.scale == 2 then return amount(value, 10, "m") end
  return "of no unit"
end

function MEANINGS.Speed(it)
  return it.value > MOST_SPEED and "spare" or amount(it.value, 5, "km/h")
end

function MEANINGS.Bits(it, walk)
  local bits = {}
  for at = it.from, it.from + it.width - 1 do
    bits[#bits + 1] = walk.bytes:bitfield(at, 1) == 1 and "1" or "0"
  end
  return table.concat(bits)
end

function MEANINGS.Filling(it, walk) return MEANINGS.Bits(it, walk) end

-- The unit in which a value counts, or nil.
local DISTANCE_UNITS = {[0] = "10 cm", [1] = "1 m", [2] = "10 m"}
local UNITS = {TrainTime = "10 ms", Speed = "5 km/h"}

local function unit_of(it)
  if it.part.kind == "Distance" then return DISTANCE_UNITS[it.scale] end
  return it.part.unit or UNITS[it.part.kind]
end

-- The section of SUBSET-026 that defines a field, `profile` for names of this project, or nil.
local function section_of(it, walk)
  local kind, name = it.part.kind, it.part.name
  if kind == "Message" then return walk.side.messages end
  if kind == "Packet" then return walk.side.packets end
  if name == "filling" or name == "bits" then return nil end
  return PROFILE[name] and "profile" or VARIABLES
end

local function label_of(it, walk)
  local meaning, unit, section = MEANINGS[it.part.kind](it, walk), unit_of(it), section_of(it, walk)
  local label = ("%s: %s"):format(it.part.name, digits(it.value))
  if meaning then label = label .. ", " .. meaning end
  label = label .. (" [bits %d to %d, width %d"):format(it.from, it.from + it.width - 1, it.width)
  if unit then label = label .. ", unit " .. unit end
  if section then label = label .. ", " .. section end
  return label .. "]"
end

-- The bytes with these bits.
local function bytes_of(walk, from, width)
  local first = math.floor(from / 8)
  return walk.bytes:range(first, math.floor((from + width + 7) / 8) - first)
end

-- Shows a fault at the field before its place.
local function show_fault(item, walk, place)
  local before = walk.shown[place]
  local at = before and before.from + before.width or 0
  local fault = FAULTS[walk.fault]
  item:add_proto_expert_info(experts[walk.fault], ("fault %d at bit %d: %s"):format(fault.number, at, fault.words))
end

local function packet_item(top, walk, first)
  local it = walk.shown[first]
  local width = 0
  for next = first, #walk.shown do
    local one = walk.shown[next]
    if not one.packet or next > first and one.part.kind == "Packet" then break end
    width = width + one.width
  end
  local item = top:add(fields.packet, bytes_of(walk, it.from, width))
  item:set_text(("Packet %s: %s"):format(digits(it.value), MEANINGS.Packet(it, walk)))
  return item
end

-- Shows one message. Returns its words for the column of information.
local function show_message(bytes, tree, is_cut)
  local walk = Walk.over(bytes):message()
  local number = walk.shown[1].value
  local words = ("%s %s"):format(digits(number), WORDS.MESSAGES[number] or "unknown message")
  local top = tree:add(etcs, bytes, ("ETCS message %s, %d bytes"):format(words, bytes:len()))
  local place, packet = walk.fault and walk:place(), nil
  for count, it in ipairs(walk.shown) do
    if it.part.kind == "Packet" then packet = packet_item(top, walk, count) end
    local parent = it.packet and packet or top
    local name, value = it.part.name, it.value
    if are_long[name] and type(value) == "number" then value = UInt64.new(value) end
    local item = parent:add(fields[name], bytes_of(walk, it.from, it.width), value)
    item:set_text(label_of(it, walk))
    if place == count and not is_cut then show_fault(item, walk, place) end
  end
  if is_cut then top:add_proto_expert_info(experts.cut) end
  for _, it in ipairs(walk.shown) do
    if it.part.name == "NID_ENGINE" then words = ("%s, train %s"):format(words, digits(it.value)) end
  end
  return walk.fault and not is_cut and ("%s, fault %d"):format(words, FAULTS[walk.fault].number) or words
end

-- The length of the message that begins here, and whether it may need bytes after these. L_MESSAGE gives it, if it is 3
-- at least. Otherwise the message goes to the end of the bytes.
local function length_at(tvb, at)
  local left = tvb:len() - at
  if left < 3 then return left, true end
  local l_message = tvb:range(at, 3):bitfield(8, 10)
  if l_message < 3 then return math.min(left, LONGEST), false end
  if l_message > left then return math.min(left, LONGEST), true end
  return l_message, false
end

function etcs.dissector(tvb, pinfo, tree)
  local at, told = 0, {}
  local is_cut = tvb:len() < tvb:reported_len()
  pinfo.cols.protocol = "ETCS"
  while at < tvb:len() do
    local length, is_beginning = length_at(tvb, at)
    if is_beginning and pinfo.can_desegment > 0 then
      local left = tvb:len() - at
      pinfo.desegment_offset = at
      pinfo.desegment_len = left < 3 and DESEGMENT_ONE_MORE_SEGMENT or tvb:range(at, 3):bitfield(8, 10) - left
      break
    end
    told[#told + 1] = show_message(tvb:range(at, length), tree, is_cut and at + length == tvb:len())
    at = at + length
  end
  if #told > 0 then
    pinfo.cols.info = table.concat(told, " | ") .. " "
    pinfo.cols.info:fence()
  end
  return tvb:len()
end

local tcp_ports, ports = DissectorTable.get("tcp.port"), etcs.prefs.ports
tcp_ports:add(ports, etcs)

function etcs.prefs_changed()
  if ports == etcs.prefs.ports then return end
  tcp_ports:remove(ports, etcs)
  ports = etcs.prefs.ports
  tcp_ports:add(ports, etcs)
end
