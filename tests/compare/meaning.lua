-- What a core means, in the words of LPeg (lpeg 1.0 for Lua 5.4): reads the cores that `rosie expand` prints, makes
-- LPeg's patterns of them, and matches lines with these. Sequences, choices, repetitions, predicates, rules, captures
-- and the ends are LPeg's own, and so is look-behind of one length over ASCII. Two things are functions that LPeg
-- calls: characters beyond ASCII, since LPeg knows bytes, and look-behind that LPeg doesn't take.
local lpeg = require "lpeg"
local P, R, S, V, C = lpeg.P, lpeg.R, lpeg.S, lpeg.V, lpeg.C
local Cc, Cg, Cmt, Cp, Ct = lpeg.Cc, lpeg.Cg, lpeg.Cmt, lpeg.Cp, lpeg.Ct
lpeg.setmaxstack(100000)

local meaning = {}

-- One character of the ranges {first, last}.
function meaning.set(ranges)
  local ascii, wide = P(false), {}
  for _, range in ipairs(ranges) do
    if range[1] < 128 then ascii = ascii + R(string.char(range[1], math.min(range[2], 127))) end
    if range[2] > 127 then table.insert(wide, range) end
  end
  if #wide == 0 then return ascii end
  return ascii + Cmt(R "\128\255", function(text, behind)
    local character = utf8.codepoint(text, behind - 1)
    for _, range in ipairs(wide) do
      if range[1] <= character and character <= range[2] then return behind - 1 + #utf8.char(character) end
    end
    return false
  end)
end

-- The parts one behind the other; none of them is the empty text.
function meaning.seq(parts)
  local whole = P(true)
  for index = #parts, 1, -1 do whole = parts[index] * whole end
  return whole
end

-- It matches everywhere and takes nothing, but LPeg's check doesn't know that it can't fail.
local sure = -P(false)

-- The first part that matches, for good. LPeg drops what stands behind a part that it knows can't fail, and then sees
-- no left recursion there.
function meaning.choice(parts)
  local whole = parts[#parts]
  for index = #parts - 1, 1, -1 do whole = parts[index] * sure + whole end
  return whole
end

-- As often as it matches; nothing is given back.
meaning.many = function(body) return body ^ 0 end

-- Predicates: they take nothing and give no captures.
meaning["not"] = function(body) return -body end
meaning["and"] = function(body) return #body end

-- Some number of characters before the place, from the least to the greatest, the body matches up to just the place.
function meaning.behind(least, most, body)
  local taken, own = pcall(lpeg.B, body)
  if taken then return own end
  local its_end = body * Cp()
  return Cmt(P(true), function(text, place)
    for count = least, most do
      local start = utf8.offset(text, -count, place)
      if start and its_end:match(text, start) == place then return true end
    end
    return false
  end)
end

-- A rule by its name.
meaning.call = function(name) return V(name) end

-- A node of the type, from where the body begins to where it ends, with the nodes inside it; and a note, which takes
-- nothing.
meaning.capture = function(name, body) return Ct(Cg(Cc(name), "type") * Cg(Cp(), "s") * body * Cg(Cp(), "e")) end
meaning.note = function(text)
  return Ct(Cg(Cc "message", "type") * Cg(Cp(), "s") * Cg(Cp(), "e") * Cg(Cc(text), "note"))
end

-- The first place and the last: no character before it, none behind it.
meaning.start = -lpeg.B(1)
meaning["end"] = -P(1)

-- Reads a core as it is printed, and makes of it what it means.
local hex = R("09", "af") ^ 1 / function(digits) return tonumber(digits, 16) end
local number = R "09" ^ 1 / tonumber
local name = C((1 - S " ()") ^ 1)
local quoted = C('"' * (P "\\" * 1 + (1 - S '\\"')) ^ 0 * '"')
local range = Ct(hex * "-" * hex) + Ct(hex / function(only) return only, only end)
local core = " " * V "core"
local function named(kind) return function(...) return meaning[kind](...) end end
local reader = P {
  V "core" * -1,
  core = "(set" * (" none" * Ct "" + Ct((" " * range) ^ 1)) * ")" / named "set"
    + "(seq" * Ct(core ^ 0) * ")" / named "seq"
    + "(choice" * Ct(core ^ 1) * ")" / named "choice"
    + "(many" * core * ")" / named "many"
    + "(not" * core * ")" / named "not"
    + "(and" * core * ")" / named "and"
    + "(behind " * number * " " * number * core * ")" / named "behind"
    + "(call " * name * ")" / named "call"
    + "(capture " * name * core * ")" / named "capture"
    + "(note " * quoted * ")" / named "note"
    + P "start" / function() return meaning.start end
    + P "end" / function() return meaning["end"] end,
}

-- LPeg's grammar of lines `NAME = CORE`, of which the one of `*` is the pattern. Ends with an error where LPeg refuses
-- it.
local function grammar(lines)
  local rules = { "*" }
  for _, line in ipairs(lines) do
    local rule, body = line:match "^(%S+) = (.*)$"
    rules[rule] = reader:match(body) or error("not in LPeg's words: " .. body, 0)
  end
  return P(rules)
end

-- A node as the command prints it. Text is a string of JSON (RFC 8259, section 7).
local short = {
  ['"'] = '\\"', ["\\"] = "\\\\", ["\b"] = "\\b", ["\f"] = "\\f", ["\n"] = "\\n", ["\r"] = "\\r", ["\t"] = "\\t",
}
local function json(text)
  return '"' .. text:gsub('[%z\1-\31"\\]', function(c) return short[c] or ("\\u%04x"):format(c:byte()) end) .. '"'
end
local function printed(node, line)
  local data = node.note or json(line:sub(node.s, node.e - 1))
  local subs = {}
  for index, sub in ipairs(node) do subs[index] = printed(sub, line) end
  local below = #subs > 0 and ',"subs":[' .. table.concat(subs, ",") .. "]" or ""
  return ('{"type":%s,"s":%d,"e":%d,"data":%s%s}'):format(json(node.type), node.s, node.e, data, below)
end

-- What an error says, in its first line, without the place in this file.
local function why(fault) return (tostring(fault):gsub("\n.*", ""):gsub("^%S+:%d+: ", "")) end

-- What LPeg answers to a line: the tree, `no`, or why it gives none.
local function answer(pattern, line)
  local done, node = pcall(lpeg.match, pattern, line)
  if not done then return "limit: " .. why(node) end
  return node and printed(node, line) or "no"
end

-- Standard input has cases, each with a line that tells how many lines of cores and how many lines to match come behind
-- it. Of each case it is said whether LPeg accepts the grammar, or why not, and then what it answers to each line.
local function main()
  for head in io.lines() do
    local cores, lines = {}, {}
    local how_many_cores, how_many_lines = head:match "^case (%d+) (%d+)$"
    for index = 1, tonumber(how_many_cores) do cores[index] = io.read() end
    for index = 1, tonumber(how_many_lines) do lines[index] = io.read() end
    local accepted, pattern = pcall(grammar, cores)
    print(accepted and "accepted" or "refused: " .. why(pattern))
    for _, line in ipairs(lines) do print(accepted and answer(pattern, line) or "limit: no pattern") end
  end
end

-- `meaning.lua FILE NAME` plants a fault: the file, which gives wrong meanings by their names, puts one in place.
if arg[1] then dofile(arg[1])[arg[2]](meaning) end
main()
