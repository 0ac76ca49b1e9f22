-- The patterns of the jobs as someone would write them for LPeg: `lua5.4 patterns.lua JOB < LINES` or `luajit
-- patterns.lua JOB < LINES`. What is written is what `rosie` writes, to the byte; bench/run compares both before it
-- measures them.
local lpeg = require "lpeg"
local P, R, S, V, B = lpeg.P, lpeg.R, lpeg.S, lpeg.V, lpeg.B
local C, Cc, Cg, Cp, Ct = lpeg.C, lpeg.Cc, lpeg.Cg, lpeg.Cp, lpeg.Ct

local digit, word, punct, blank = R "09", R("09", "az", "AZ"), R("!/", ":@", "[`", "{~"), S " \t\n\v\f\r"
local boundary = blank ^ 1 + #word * -B(word) + #punct + B(punct) + B(blank) * -blank + -P(1) + -B(1)

local function node(name, body) return Ct(Cg(Cc(name), "type") * Cg(Cp(), "s") * body * Cg(Cp(), "e")) end

-- Writing a tree.
local short = { ['"'] = '\\"', ["\\"] = "\\\\", ["\t"] = "\\t", ["\r"] = "\\r", ["\b"] = "\\b", ["\f"] = "\\f" }
local function json(text)
  if not text:find '[%c"\\]' then return '"' .. text .. '"' end
  return '"' .. text:gsub('[%z\1-\31"\\]', function(c) return short[c] or ("\\u%04x"):format(c:byte()) end) .. '"'
end
local function put(out, node, line)
  out[#out + 1] = '{"type":"' .. node.type .. '","s":' .. node.s .. ',"e":' .. node.e
    .. ',"data":' .. json(line:sub(node.s, node.e - 1))
  if #node > 0 then
    out[#out + 1] = ',"subs":['
    for index = 1, #node do
      if index > 1 then out[#out + 1] = "," end
      put(out, node[index], line)
    end
    out[#out + 1] = "]"
  end
  out[#out + 1] = "}"
end
local function tree(pattern)
  return function(line)
    local found = pattern:match(line)
    if found then
      local out = {}
      put(out, found, line)
      io.write(table.concat(out), "\n")
    end
  end
end

-- The line where it matches, and each text that was captured.
local function whole(pattern)
  return function(line) if pattern:match(line) then io.write(line, "\n") end end
end
local function each(pattern)
  pattern = Ct(pattern)
  return function(line)
    local found = pattern:match(line)
    if found then for index = 1, #found do io.write(found[index], "\n") end end
  end
end

-- Goes on to where the pattern matches.
local function search(pattern) return (1 - pattern) ^ 0 * pattern end

local date = digit * digit * digit * digit * "-" * digit * digit * "-" * digit * digit
local level = R "AZ" ^ 1

local text = node("csv.text", (1 - S ',"\r\n') ^ 0)
local quoted = node("csv.quoted", '"' * ('""' + (1 - P '"')) ^ 0 * '"')
local field = node("csv.field", quoted + text)

local user = node("bench.user", (1 - P " ") ^ 1)
local number = digit ^ 1
local access = node("bench.access", node("bench.address", number * "." * number * "." * number * "." * number)
  * " " * user * " " * user * " [" * node("bench.time", (1 - P "]") ^ 1) * "] "
  * node("bench.request", '"' * (P "\\" * 1 + (1 - S '"\\')) ^ 0 * '"') * " "
  * node("bench.status", digit * digit * digit) * " " * node("bench.bytes", number + "-"))

local ws, hex = S " \t\r\n" ^ 0, R("09", "af", "AF")
local string = '"' * (P "\\" * (S '"\\/bfnrt' + "u" * hex * hex * hex * hex) + (1 - R "\0\31" - S '"\\')) ^ 0 * '"'
local figure = P "-" ^ -1 * ("0" + R "19" * digit ^ 0) * ("." * digit ^ 1) ^ -1
  * (S "eE" * S "+-" ^ -1 * digit ^ 1) ^ -1
local function json_value(made)
  return P {
    "value",
    value = made("json.value", V "object" + V "array" + V "string" + made("json.number", figure)
      + made("json.true", P "true") + made("json.false", P "false") + made("json.null", P "null")),
    string = made("json.string", string),
    member = made("json.member", V "string" * ws * ":" * ws * V "value"),
    object = made("json.object", "{" * ws * (V "member" * (ws * "," * ws * V "member") ^ 0) ^ -1 * ws * "}"),
    array = made("json.array", "[" * ws * (V "value" * (ws * "," * ws * V "value") ^ 0) ^ -1 * ws * "]"),
  }
end

local jobs = {
  dates = tree(node("bench.stamp", node("bench.date", date) * boundary * node("bench.level", level))),
  dates_as_line = whole(date * boundary * level),
  no_match = whole(P "zzz"),
  absent_literal = whole(search(P "zzz")),
  literal = whole(search(P "ERROR")),
  scripts = whole(search(P "ERROR")),
  cyrillic = whole(search(P "до")),
  digits = each((search(C(digit ^ 1))) ^ 1),
  json = tree(json_value(node)),
  json_as_line = whole(json_value(function(_, body) return body end)),
  csv = tree(node("csv.record", field * ("," * field) ^ 0 * P "\r" ^ -1)),
  access = tree(access),
}

io.stdout:setvbuf "full"
local job = jobs[arg[1]]
for line in io.lines() do job(line) end
