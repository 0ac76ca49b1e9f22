-- Faults to plant into the meaning of cores, one at a time: tests/compare/planted shows that the comparison finds each
-- of them.
local lpeg = require "lpeg"
local P, B, V, Cmt, Cp = lpeg.P, lpeg.B, lpeg.V, lpeg.Cmt, lpeg.Cp

local planted = {}

-- What some patterns were made of.
local parts_of, body_of = setmetatable({}, { __mode = "k" }), setmetatable({}, { __mode = "k" })

-- Matches where the body does, takes nothing, and gives the nodes that the body gives there.
local function kept(body)
  local nodes = {}
  local function keep(_, _, start, ...)
    nodes[start] = {}
    for _, found in ipairs { ... } do
      if type(found) == "table" then table.insert(nodes[start], found) end
    end
    return true
  end
  return #Cmt(Cp() * body, keep) * (Cp() / function(start) return table.unpack(nodes[start]) end)
end

-- The nodes of as many parts of a sequence as match.
local function kept_of_front(pattern)
  local parts, whole = parts_of[pattern] or {}, P(true)
  for index = #parts - 1, 1, -1 do whole = parts[index] * whole + P(true) end
  return kept(whole)
end

-- Remembers the parts of each sequence.
local function remember_parts(meaning)
  local right = meaning.seq
  meaning.seq = function(parts)
    local whole = right(parts)
    parts_of[whole] = parts
    return whole
  end
end

function planted.choice_in_the_wrong_order(meaning)
  local right = meaning.choice
  meaning.choice = function(parts)
    local turned = {}
    for index = #parts, 1, -1 do table.insert(turned, parts[index]) end
    return right(turned)
  end
end

-- Where what follows fails, the last turn is given back once.
function planted.repetition_that_gives_back(meaning)
  meaning.many = function(body)
    local whole = body ^ 0
    body_of[whole] = body
    return whole
  end
  meaning.seq = function(parts)
    local whole = P(true)
    for index = #parts, 1, -1 do
      local body = body_of[parts[index]]
      whole = parts[index] * whole + (body and (body * #body) ^ 0 * whole or P(false))
    end
    return whole
  end
end

function planted.repetition_that_stops_after_two_turns(meaning)
  meaning.many = function(body) return body ^ -2 end
end

function planted.look_behind_past_the_place(meaning)
  meaning.behind = function(least, most, body)
    local its_end = body * Cp()
    return Cmt(P(true), function(text, place)
      for count = least, most do
        local start = utf8.offset(text, -count, place)
        local found = start and its_end:match(text, start)
        if found and found >= place then return true end
      end
      return false
    end)
  end
end

function planted.look_behind_of_the_least_length_alone(meaning)
  local right = meaning.behind
  meaning.behind = function(least, _, body) return right(least, least, body) end
end

function planted.captures_of_a_failed_choice_kept(meaning)
  remember_parts(meaning)
  meaning.choice = function(parts)
    local whole = parts[#parts]
    for index = #parts - 1, 1, -1 do whole = parts[index] + kept_of_front(parts[index]) * whole end
    return whole
  end
end

function planted.captures_of_a_not_kept(meaning)
  remember_parts(meaning)
  meaning["not"] = function(body) return -body * kept_of_front(body) end
end

function planted.captures_of_an_and_kept(meaning)
  meaning["and"] = kept
end

function planted.boundary_missing(meaning)
  meaning.call = function(name) return name:find "~$" and P(true) or V(name) end
end

function planted.set_off_by_one(meaning)
  local right = meaning.set
  meaning.set = function(ranges)
    local last = ranges[#ranges]
    if last and last[2] < 0x10ffff then last[2] = last[2] + 1 end
    return right(ranges)
  end
end

function planted.wide_characters_as_single_bytes(meaning)
  local right = meaning.set
  meaning.set = function(ranges)
    local ascii, wide = {}, false
    for _, range in ipairs(ranges) do
      if range[1] < 128 then table.insert(ascii, { range[1], math.min(range[2], 127) }) end
      wide = wide or range[2] > 127
    end
    return wide and right(ascii) + lpeg.R "\128\255" or right(ranges)
  end
end

function planted.start_behind_a_capital_letter(meaning)
  meaning.start = -B(1) + B(lpeg.R "AZ")
end

function planted.end_before_the_last_character(meaning)
  meaning["end"] = -(P(1) * 1)
end

function planted.node_that_ends_late(meaning)
  meaning.capture = function(name, body)
    local last = lpeg.Cg(Cp() / function(at) return at + 1 end, "e")
    return lpeg.Ct(lpeg.Cg(lpeg.Cc(name), "type") * lpeg.Cg(Cp(), "s") * body * last)
  end
end

-- Faults of the check alone: the cores are only given to LPeg, and no line is matched.
function planted.check_that_lets_all_through(meaning)
  local right = meaning.seq
  meaning.seq = function(parts) return #parts == 0 and P(1) or right(parts) end
end

function planted.check_that_refuses_too_much(meaning)
  meaning.set = function() return P(1) ^ -1 end
end

return planted
