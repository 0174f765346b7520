-- Golly as a live client of `genedit serve`: what is drawn here everybody sees, and what they draw is seen here.
--
-- Golly lets nobody draw while a script runs, so this one takes the clicks and these keys itself:
--   pencil: draws, an edit for each tenth of a second     delete: clears the selection
--   v: pastes the clipboard at the mouse (Copy)           o: the same by Or
--   z or u: takes back the last of these                  p: looks at later generations, and back
-- All else is as ever: states, the selection, copying it, zoom and scrolling. Escape leaves the board.
--
-- The environment says how to get there: GENEDIT is the program, else `genedit` on the PATH; GENEDIT_PORT the port.

local g = golly()
local board = dofile(debug.getinfo(1, "S").source:match("^@(.*/)") .. "board.lua")

-- milliseconds between two edits of a stroke, between two generations, and between two looks at the screen
local STROKE, GENERATION, SCREEN = 100, 100, 200
-- how many edits may be on their way; until one has arrived, further cells are kept back
local MOST_ON_THE_WAY = 16
-- the rows of an area beyond which Golly would look too long for what to take back
local MOST_ROWS = 1 << 16
-- seconds in which a click has to come, where one is awaited
local PATIENCE = 20
local LATER = "later generations"
local HELP = ": delete clears, v and o paste, z takes back, p looks ahead, escape leaves"

local helper
local layer = {}         -- where the board's layer stood when it was seen last
local arrived = {}       -- cells that look different, not put into Golly yet
local lacks_all = false  -- whether Golly has to be compared with the whole board
local asks_all = false   -- whether that was asked for
local pencil             -- the stroke that is being drawn: its state, its last cell, and what was there before
local waiting = {}       -- drawn cells that are not sent yet, as a map with the dead ones
local sent_at = 0        -- when cells were sent last
local drawings = {}      -- what can be taken back: of each drawing the cells that were there before
local runs = false       -- whether the later generations run
local ran_at = 0
local is_changed = true  -- whether the screen is behind
local shown_at = 0

-- Whether the board's layer is the current one. Saving renames a layer: then it gets its name back.
local function is_at_board()
    local index, count = g.getlayer(), g.numlayers()
    if g.getname() ~= helper.name then
        if index ~= layer.index or count ~= layer.count then return false end
        g.setname(helper.name)
    end
    layer.index, layer.count = index, count
    return true
end

local function put_arrived()
    is_changed = is_changed or #arrived > 0
    board.put(arrived)
    arrived = {}
end

-- What came of a drawing. Golly shows it already; what was refused looks as on the board again.
local function drawing_answered(line, word)
    if word ~= "refused" then return end
    g.error(line)
    lacks_all = true
end

local function draw(cells)
    for _, command in ipairs(board.drawing(cells)) do helper:ask(command, drawing_answered) end
end

-- The whole board was written to a file: what Golly shows otherwise is set right. Cells on their way are told later.
local function all_answered(line, word)
    asks_all = false
    if word == "refused" then
        g.error("the board has more cells than can be shown: " .. line)
    elseif is_at_board() then
        put_arrived()
        local folder = helper.folder
        board.put(board.difference(board.read_golly(folder .. "board.mc"), board.read_rle(folder .. "board.rle")))
        is_changed = true
    else
        lacks_all = true
    end
end

local news = {}

function news.now(line)
    for x, y, state in line:gmatch("(%-?%d+) (%-?%d+) (%d+)") do
        board.add(arrived, tonumber(x), tonumber(y), tonumber(state))
    end
end

function news.whole()
    lacks_all = true
end

-- More cells look different than are told.
function news.many()
    lacks_all = true
end

-- The server came back, and there is a new seat. All is compared, so that what is not on the board goes.
function news.joined()
    helper:rename_layer()
    lacks_all = true
    g.show(helper.name .. HELP)
end

-- As that the server went away, and is tried again.
function news.said(line)
    g.show(line)
end

-- Shows what came, unless another layer is looked at; then it waits.
local function follow()
    helper:hear()
    if not is_at_board() then return end
    put_arrived()
    if lacks_all and not asks_all then
        lacks_all, asks_all = false, true
        helper:ask("export! 0 board.rle", all_answered)
    end
end

local function send_waiting()
    if next(waiting) == nil then return end
    draw(board.list(waiting))
    waiting = {}
    sent_at = g.millisecs()
end

-- Draws a cell of the stroke; it is seen at once, and the board's order decides in the end.
local function dab(x, y)
    if not board.is_in_plane(x, y) then return end
    local place = board.place(x, y)
    pencil.before[place] = pencil.before[place] or g.getcell(x, y)
    waiting[place] = pencil.state
    g.setcell(x, y, pencil.state)
    is_changed = true
end

-- Begins a stroke. As Golly's pencil, it draws dead cells where the state is there already.
local function press(x, y)
    local state = g.getoption("drawingstate")
    if g.getcell(x, y) == state then state = 0 end
    pencil = {state = state, x = x, y = y, before = {}}
    dab(x, y)
end

-- The cell that the mouse is at; nothing where it is elsewhere.
local function mouse()
    local x, y = g.getxy():match("(%S+) (%S+)")
    return tonumber(x), tonumber(y)
end

-- Goes on with the stroke, in a straight line to where the mouse is.
local function stroke()
    local x, y = mouse()
    if not x or x == pencil.x and y == pencil.y then return end
    local across, down = x - pencil.x, y - pencil.y
    local far = math.max(math.abs(across), math.abs(down))
    for i = 1, far do
        dab(pencil.x + (2 * i * across + far) // (2 * far), pencil.y + (2 * i * down + far) // (2 * far))
    end
    pencil.x, pencil.y = x, y
end

local function release()
    stroke()
    drawings[#drawings + 1] = board.list(pencil.before)
    pencil = nil
    send_waiting()
end

-- Takes the last drawing back by a new edit, which brings the states that were there before it.
local function take_back()
    local cells = table.remove(drawings)
    if not cells then return g.show("nothing is left to take back") end
    send_waiting()
    draw(cells)
    board.put(cells)
    is_changed = true
end

-- Keeps what is in an area, to take back what will be drawn there: the cells of a map, and where it is everything
-- in the area that changes, all others that are not dead.
local function keep_before(area, map, is_everything)
    if area[4] > MOST_ROWS then return g.show("this cannot be taken back") end
    local cells = board.of_golly(g.getcells(area))
    for i = 1, #cells, 3 do
        local place = board.place(cells[i], cells[i + 1])
        if is_everything or map[place] then map[place] = cells[i + 2] end
    end
    drawings[#drawings + 1] = board.list(map)
end

local function clear_selection()
    local is_known, area = pcall(g.getselrect)
    if not is_known or #area == 0 then return g.show("nothing is selected, or too much") end
    keep_before(area, {}, true)
    send_waiting()
    helper:ask("clear " .. table.concat(area, " "), drawing_answered)
end

-- Pastes the clipboard, its corner at the mouse.
local function paste(how)
    local x, y = mouse()
    local is_pattern, width, height, list = pcall(g.getclip)
    if not is_pattern then return g.show("the clipboard has no pattern") end
    if not x or not board.is_in_plane(x, y) then return g.show("the mouse is not at a cell of the board") end
    local cells, drawn = board.of_golly(list), {}
    for i = 1, #cells, 3 do drawn[board.place(x + cells[i], y + cells[i + 1])] = 0 end
    if width > 0 and height > 0 then keep_before({x, y, width, height}, drawn, how == "copy") end
    helper:ask("pattern clip\n" .. board.rle(width, height, cells) .. "\nend", function(line, word)
        if word == "refused" then return g.error(line) end
        send_waiting()
        helper:ask(how .. " clip " .. x .. " " .. y, drawing_answered)
    end)
end

local function copy_selection()
    local is_known, area = pcall(g.getselrect)
    if is_known and #area > 0 then g.copy() end
end

local function select_all()
    local is_known, area = pcall(g.getrect)
    if is_known then g.select(area) else g.show("the board is too wide to be selected") end
end

-- Shows a copy of the board in a second layer, where its generations run.
local function look_ahead()
    g.duplicate()
    g.setname(LATER)
    runs = true
    g.show("return stops and goes on, space runs one generation, p comes back")
end

local function come_back()
    runs = false
    g.dellayer()
    for index = 0, g.numlayers() - 1 do
        if g.getname(index) == helper.name then g.setlayer(index) end
    end
    g.show(helper.name .. HELP)
end

local at_board = {
    ["key delete none"] = clear_selection,
    ["key v none"] = function() paste("copy") end,
    ["key v ctrl"] = function() paste("copy") end,
    ["key o none"] = function() paste("or") end,
    ["key u none"] = take_back,
    ["key z none"] = take_back,
    ["key z ctrl"] = take_back,
    -- these Golly does not do for an event that a script passes on
    ["key c ctrl"] = copy_selection,
    ["key a none"] = select_all,
    ["key a ctrl"] = select_all,
    ["key k none"] = function() g.select({}) end,
    ["key p none"] = look_ahead,
}

local at_later = {
    ["key p none"] = come_back,
    ["key return none"] = function() runs = not runs end,
    ["key space none"] = function() g.run(1) end,
}

-- Does what an event asks for: by itself at the board, and where later generations are looked at; else Golly does.
local function handle(event)
    is_changed = true
    if event:find("^file ") then return g.show("a file would take the board's place: escape leaves the board") end
    local x, y, button = event:match("^click (%S+) (%S+) (%S+)")
    if g.getname() == LATER and at_later[event] then return at_later[event]() end
    if not is_at_board() then return g.doevent(event) end
    if button == "left" and g.getcursor() == "Draw" then return press(tonumber(x), tonumber(y)) end
    if event == "mup left" and pencil then return release() end
    if at_board[event] and not pencil then return at_board[event]() end
    g.doevent(event)
end

local function handle_events()
    local event = g.getevent()
    while event ~= "" do
        handle(event)
        event = g.getevent()
    end
end

-- What happens without a command or an event: strokes go on, cells go out, generations run, the screen follows.
local function go_on()
    local now = g.millisecs()
    if pencil then stroke() end
    if now - sent_at >= STROKE and #helper.asked < MOST_ON_THE_WAY then send_waiting() end
    if runs and g.getname() == LATER and now - ran_at >= GENERATION then
        g.run(1)
        ran_at, is_changed = now, true
    end
    if is_changed or now - shown_at >= SCREEN then
        g.update()
        shown_at, is_changed = now, false
    end
    g.sleep(pencil and 5 or 15)
end

-- Whether this script stands in Golly's command line.
local function is_of_command_line()
    local file = io.open("/proc/self/cmdline")
    if not file then return false end
    local words = file:read("a")
    file:close()
    return words:find("live.lua", 1, true) ~= nil
end

-- Whether Golly takes events. A script of its command line is started by a timer, which may strike while Golly waits
-- for what the clipboard has; then none comes until the script has ended. So there a first one is awaited: a click.
local function takes_events()
    if not is_of_command_line() then return true end
    g.show("click here to join the board")
    g.update()
    local begin = g.millisecs()
    while g.getevent() == "" do
        if g.millisecs() - begin > 1000 * PATIENCE then return false end
        g.sleep(15)
    end
    return true
end

local function main()
    if not takes_events() then return "no click came: run live.lua again, by its key or by File > Run Recent" end
    local port = board.port()
    helper = board.start(g.getdir("temp") .. "live/", port, "--follow --changes", news)
    if not helper:is_joined() then return helper:reason() end
    helper:open_layer(port)
    g.show(helper.name .. HELP)
    while not helper.ended do
        follow()
        handle_events()
        go_on()
    end
    return helper:reason()
end

-- Escape and faults come to the end here too, so that the seat is always left.
local _, message = pcall(main)
g.continue("")
if helper then helper:leave() end
g.show(board.is_escape(message) and "the board was left" or message)
