-- Golly as a client of `genedit serve` on a key: draw with all that Golly has, undo, fill and rotate too, and run this
-- script, by a key of your own (Preferences > Keyboard: Open file..). What others drew comes in, and what was drawn
-- here since the last time goes out as one edit.
--
-- The first run joins the board, in a layer of its own; the seat is left when Golly ends. Undo reaches behind a run:
-- what it takes back of others' drawings is taken back for all by the next run.
--
-- The environment says how to get there: GENEDIT is the program, else `genedit` on the PATH; GENEDIT_PORT the port.

local g = golly()
local board = dofile(debug.getinfo(1, "S").source:match("^@(.*/)") .. "board.lua")

-- for how many seconds an answer is awaited
local PATIENCE = 60

local folder = g.getdir("temp") .. "sync/"
local helper

-- What is kept from run to run: the layer's name, the rule, how many runs were done, of which the last, N, left Golly
-- as it is in the macrocell file N.mc, and the board so too; how far the helper was heard then; and how many runs
-- since then asked it for news, and were ended.
local KEPT = {"name", "rule", "runs", "heard", "asked"}

local function read_kept()
    local kept = {}
    for line in io.lines(folder .. "kept") do
        local name, value = line:match("^(%S+) (.*)$")
        kept[name] = math.tointeger(tonumber(value)) or value
    end
    return kept
end

local function keep(kept)
    local file = assert(io.open(folder .. "kept", "w"))
    for _, name in ipairs(KEPT) do file:write(name, " ", kept[name], "\n") end
    file:close()
end

-- The file of what stood in Golly behind the last run, and before the first.
local function last_file(kept)
    return folder .. kept.runs .. ".mc"
end

-- Joins the board in the first run; why it did not, where it did not.
local function join()
    local port = board.port()
    helper = board.start(folder, port, "--follow --changes", {})
    if not helper:is_joined() then
        local reason = helper:reason()
        helper:leave()
        return reason
    end
    helper:open_layer(port)
    local kept = {name = helper.name, rule = helper.rule, runs = 0, heard = 0, asked = 0}
    assert(io.open(last_file(kept), "w")):close()
    keep(kept)
end

-- Why what stands in Golly is not the board with drawings; nothing where it is.
local function obstacle(kept)
    if g.getname() ~= kept.name then
        return "go to the layer `" .. kept.name .. "`; once saved, it has to be named so again (Layer > Name Layer)"
    elseif g.getrule() ~= kept.rule then
        return "the board's rule is " .. kept.rule .. ": set it first (Control > Set Rule)"
    elseif g.getgen() ~= "0" then
        return "the pattern was run: reset it first (Control > Reset)"
    end
end

-- What came of an exchange: the cells that look different on the board than behind the last run that was done, whether
-- there are more than are told, what was refused, and how many runs have had their news.
local function new_outcome()
    return {looks = {}, is_more = false, refusal = nil, answered = 0}
end

-- Who notes in an outcome what the helper tells.
local function news_to(outcome)
    return {
        now = function(line)
            for x, y, state in line:gmatch("(%-?%d+) (%-?%d+) (%d+)") do
                outcome.looks[board.place(tonumber(x), tonumber(y))] = tonumber(state)
            end
        end,
        many = function() outcome.is_more = true end,
        refused = function(line) outcome.refusal = line end,
        cell = function() outcome.answered = outcome.answered + 1 end,
    }
end

-- Sends what was drawn, and hears how the board looks then; how many cells were sent, what came, and whether that is
-- all. A cell is shown last, which tells that all was told that this run asked for, and the ended ones before it.
local function exchange(kept, drawn)
    local outcome = new_outcome()
    helper.news = news_to(outcome)
    local function is_answered() return outcome.answered == kept.asked end
    helper:hear_from(kept.heard)
    if not helper:await(PATIENCE, is_answered) then return 0, outcome, false end
    -- a run that was ended may have sent the rest, or have shown what others drew
    local cells = board.cells_beside(drawn, outcome.looks)
    for _, command in ipairs(board.drawing(cells)) do helper:say(command) end
    -- nothing that Escape ends stands between the two
    kept.asked = kept.asked + 1
    keep(kept)
    helper:say("poll\nshow 0 0")
    return #cells // 3, outcome, helper:await(PATIENCE, is_answered)
end

-- The map of the whole board, of which more is different than is told; or why it is not there.
local function whole_board()
    local answer
    helper:ask("export! 0 board.rle", function(line) answer = line end)
    helper:await(PATIENCE, function() return answer end)
    if answer and answer:find("^wrote") then return board.read_rle(folder .. "board.rle") end
    return nil, answer or helper:reason()
end

-- The cells that have to be set in Golly: where the board looks otherwise than was drawn, or as nothing was drawn.
local function to_put(looks, before, drawn)
    for place, state in pairs(before) do looks[place] = looks[place] or state end
    return board.cells_beside(looks, drawn)
end

-- Shows cells, and keeps what stands in Golly for the next run.
local function show(kept, cells)
    local old = last_file(kept)
    kept.runs = kept.runs + 1
    board.put(cells)
    if #cells > 0 then board.saved(last_file(kept)) else assert(os.rename(folder .. "board.mc", last_file(kept))) end
    kept.heard, kept.asked = helper:position(), 0
    keep(kept)
    os.remove(old)
end

-- The cells that have to be set in Golly where more is different than is told; or why that is not known.
local function all_to_put(text)
    local whole, reason = whole_board()
    if not whole then return nil, reason end
    local _, here = board.changes("", text)
    return board.difference(here, whole)
end

local function sync(kept)
    local text = board.saved(folder .. "board.mc")
    local before, drawn = board.changes(board.text_of(last_file(kept)), text)
    local sent_count, outcome, is_done = exchange(kept, drawn)
    if not is_done then return outcome.refusal or helper:reason() end
    local cells, reason
    if outcome.is_more then
        cells, reason = all_to_put(text)
    else
        cells = to_put(outcome.looks, before, drawn)
    end
    if not cells then return reason end
    local put_count = #cells // 3
    show(kept, cells)
    return outcome.refusal or sent_count .. " cells sent, " .. put_count .. " changed here"
end

-- A run at a board that was joined. Escape ends it alone: what it did not send or take, the next does.
local function run()
    local kept = read_kept()
    local is_well, message = pcall(function() return obstacle(kept) or sync(kept) end)
    if not is_well then
        if not board.is_escape(message) then error(message, 0) end
        g.continue("")
        message = "it was stopped: the next run goes on"
    end
    return message
end

local function main()
    helper = board.helper(folder, {})
    local reason = not helper and join()
    return reason or run()
end

-- A fault leaves the board.
local is_well, message = pcall(main)
if not is_well then
    g.continue("")
    if helper then helper:leave() end
end
g.show(message)
