-- What live.lua and sync.lua share: how they speak with a board, and how they read and put Golly's cells.
--
-- Golly's Lua has no sockets. So `genedit join` runs beside Golly: its commands are appended to a file, which `tail`
-- follows for as long as this Golly runs, and what it prints goes to another file, which is read here.
--
-- A list of cells has three numbers a cell: x, y and state. A map has the states of the cells that are not dead, each
-- at its place, which is one number for x and y.

local g = golly()
local board = {}

-- the plane of a board: x and y are -2^30 to 2^30 - 1
local LEAST, PAST = -(1 << 30), 1 << 30
-- how many cells an edit may have
local MOST_CELLS = 1 << 20
-- the level of a square up to which its corners are numbers here
local MOST_LEVEL = 60

-- Starts `genedit join` in a folder. Its process is told first, and its end last. Fifty times a second `tail` looks
-- whether Golly is still there, and for commands where the system does not tell it of them.
local START = [[mkdir -p %s && cd %s && : > commands && : > news && {
    tail -n +1 -f commands --pid=$PPID -s 0.02 2> /dev/null | {
        sh -c 'echo "process $$"; exec "$0" join --no-rescue "$@"' %s --port %d %s
        status=$?
        rm -f commands
        echo "ended $status"
    } > news 2>&1 &
}]]

-- the first words of the lines that answer a command; every command that is asked here has just one such line. Where
-- nothing was asked they are news, as all other lines.
local ANSWERS = {drawn = true, refused = true, pattern = true, wrote = true}

function board.is_in_plane(x, y)
    return LEAST <= x and x < PAST and LEAST <= y and y < PAST
end

function board.place(x, y)
    return x << 32 | y & 0xffffffff
end

-- The x and y of a place. Division keeps the sign, as a shift does not.
function board.at(place)
    return place // (1 << 32), (place << 32) // (1 << 32)
end

function board.add(cells, x, y, state)
    local n = #cells
    cells[n + 1], cells[n + 2], cells[n + 3] = x, y, state
end

-- The list of the cells of a map, which may have dead ones.
function board.list(map)
    local cells = {}
    for place, state in pairs(map) do
        local x, y = board.at(place)
        board.add(cells, x, y, state)
    end
    return cells
end

-- The cells of a map, its dead ones too, that look otherwise than another map says, which may say nothing of them.
function board.cells_beside(map, other)
    local cells = {}
    for place, state in pairs(map) do
        if other[place] ~= state then
            local x, y = board.at(place)
            board.add(cells, x, y, state)
        end
    end
    return cells
end

-- The cells in which one map differs from another, with their states in the other.
function board.difference(from, to)
    local cells = board.cells_beside(to, from)
    for place in pairs(from) do
        if not to[place] then
            local x, y = board.at(place)
            board.add(cells, x, y, 0)
        end
    end
    return cells
end

-- Sets just these cells in Golly, the dead ones too.
function board.put(cells)
    if #cells == 0 then return end
    -- Golly takes a list of odd length for one with states
    if #cells % 2 == 0 then cells[#cells + 1] = 0 end
    g.putcells(cells, 0, 0, 1, 0, 0, 1, "copy")
end

-- The cells of a list that Golly gave: one of even length has two numbers a cell, and all are of state 1; one of odd
-- length three, and perhaps a 0 behind them.
function board.of_golly(list)
    local cells = {}
    local step = #list % 2 == 0 and 2 or 3
    for i = 1, #list - step + 1, step do
        board.add(cells, list[i], list[i + 1], step == 3 and list[i + 2] or 1)
    end
    return cells
end

-- The commands that draw cells: one edit, or more where they are more than an edit may have.
function board.drawing(cells)
    local commands = {}
    for i = 1, #cells, 3 * MOST_CELLS do
        local last = math.min(i + 3 * MOST_CELLS - 1, #cells)
        commands[#commands + 1] = "cells " .. table.concat(cells, " ", i, last)
    end
    return commands
end

-- The state of a cell's token in an RLE text, and the other way round.
local function state_of(prefix, tag)
    if tag == "o" then return 1 end
    if tag == "b" or tag == "." then return 0 end
    local above = prefix == "" and 0 or 24 * (prefix:byte() - 111)
    return above + tag:byte() - 64
end

local function token_of(state)
    local above = (state - 1) // 24
    return (above == 0 and "" or string.char(111 + above)) .. string.char(65 + (state - 1) % 24)
end

-- The map of an RLE file that `genedit` wrote, whose first line tells the position.
function board.read_rle(path)
    local left, y, rows = board.text_of(path):match("^#CXRLE Pos=(%-?%d+),(%-?%d+)[^\n]*\n[^\n]*\n(.*)")
    left, y = tonumber(left), tonumber(y)
    local map, x = {}, left
    for count, prefix, tag in rows:gmatch("(%d*)([p-y]?)([%.%$boA-X])") do
        count = tonumber(count) or 1
        if tag == "$" then
            x, y = left, y + count
        else
            local state = state_of(prefix, tag)
            for i = x, state == 0 and x - 1 or x + count - 1 do map[board.place(i, y)] = state end
            x = x + count
        end
    end
    return map
end

-- The RLE text of a pattern whose cells stand row by row, and in each row from left to right, as Golly gives them.
function board.rle(width, height, cells)
    local tokens, x, y = {"x = " .. width .. ", y = " .. height .. "\n"}, 0, 0
    for i = 1, #cells, 3 do
        if cells[i + 1] > y then
            tokens[#tokens + 1] = cells[i + 1] - y .. "$\n"
            x, y = 0, cells[i + 1]
        end
        if cells[i] > x then tokens[#tokens + 1] = cells[i] - x .. "." end
        tokens[#tokens + 1] = token_of(cells[i + 2])
        x = cells[i] + 1
    end
    return table.concat(tokens) .. "!"
end

-- A tree is what a macrocell file has: a node a line, told by its number, and read where it is looked at. A node has
-- its level, for 2^level columns and rows, and the numbers of its quarters, at level 1 their states; 0 is empty.
local function tree_of(text)
    local tree = {lines = {}, nodes = {[0] = {0, 0, 0, 0, 0}}}
    for line in text:gmatch("\n(%d[^\n]*)") do tree.lines[#tree.lines + 1] = line end
    tree.root = #tree.lines
    return tree
end

local function node_of(tree, number)
    local node = tree.nodes[number]
    if not node then
        local level, nw, ne, sw, se = tree.lines[number]:match("^(%d+) (%d+) (%d+) (%d+) (%d+)")
        node = {tonumber(level), tonumber(nw), tonumber(ne), tonumber(sw), tonumber(se)}
        tree.nodes[number] = node
    end
    return node
end

local function add_node(tree, level, nw, ne, sw, se)
    tree.lines[#tree.lines + 1] = level .. " " .. nw .. " " .. ne .. " " .. sw .. " " .. se
    return #tree.lines
end

-- Makes a tree's root one of a greater level, with the same cells in its middle.
local function lift(tree, level)
    if tree.root == 0 then return end
    for above = node_of(tree, tree.root)[1] + 1, level do
        local _, nw, ne, sw, se = table.unpack(node_of(tree, tree.root))
        nw = nw > 0 and add_node(tree, above - 1, 0, 0, 0, nw) or 0
        ne = ne > 0 and add_node(tree, above - 1, 0, 0, ne, 0) or 0
        sw = sw > 0 and add_node(tree, above - 1, 0, sw, 0, 0) or 0
        se = se > 0 and add_node(tree, above - 1, se, 0, 0, 0) or 0
        tree.root = add_node(tree, above, nw, ne, sw, se)
    end
end

-- How many nodes two trees begin with that are the same.
local function alike(from, to)
    local count = 0
    while from.lines[count + 1] and from.lines[count + 1] == to.lines[count + 1] do count = count + 1 end
    return count
end

-- Whether two nodes are the same. What differs in a square of a pair of trees is added to its maps; what lies outside
-- of the plane is not the board's. Nodes that are found to be the same are noted, and so compared just once: squares
-- that did not change cost little, wherever they stand, though most have another number behind the first change.
local function compare(pair, a, b, half, x, y)
    if a == b and b <= pair.alike or pair.twins[b] == a then return true end
    if x >= PAST or y >= PAST or x + 2 * half <= LEAST or y + 2 * half <= LEAST then return false end
    local from, to, is_same = node_of(pair.from, a), node_of(pair.to, b), true
    for quarter = 0, 3 do
        local was, is = from[quarter + 2], to[quarter + 2]
        local left, top = x + half * (quarter & 1), y + half * (quarter >> 1)
        if half > 1 then
            is_same = compare(pair, was, is, half // 2, left, top) and is_same
        elseif was ~= is then
            local place = board.place(left, top)
            pair.before[place], pair.now[place] = was, is
            is_same = false
        end
    end
    if is_same then pair.twins[b] = a end
    return is_same
end

-- The cells in which one macrocell text differs from another: the map of their states before, and that of their
-- states now, both with the dead ones.
function board.changes(text_before, text_now)
    if text_before == text_now then return {}, {} end
    local from, to = tree_of(text_before), tree_of(text_now)
    local pair = {from = from, to = to, alike = alike(from, to), twins = {}, before = {}, now = {}}
    local level = math.max(node_of(from, from.root)[1], node_of(to, to.root)[1])
    assert(level <= MOST_LEVEL, "the pattern is too far apart")
    lift(from, level)
    lift(to, level)
    -- north is up in a macrocell file, and row 0 is the last of its upper half
    local half = 1 << level >> 1
    if level > 0 then compare(pair, from.root, to.root, half, -half, 1 - half) end
    return pair.before, pair.now
end

-- The pattern that Golly shows, as the text of a macrocell file. It goes by one, since Golly gives no rectangle of a
-- pattern beyond 10^9, and looks at each row of one that is given.
function board.saved(path)
    local name = g.getname()
    g.save(path, "mc")
    g.setname(name)
    return board.text_of(path)
end

function board.text_of(path)
    local file = assert(io.open(path))
    local text = file:read("a")
    file:close()
    return text
end

-- The map of the pattern that Golly shows.
function board.read_golly(path)
    local _, map = board.changes("", board.saved(path))
    return map
end

-- A helper: `genedit join`, what is said to it, and what it says.
local Helper = {}
Helper.__index = Helper

local function quoted(word)
    return "'" .. word:gsub("'", "'\\''") .. "'"
end

-- The port of the server, as the environment says it, or else the user.
function board.port()
    local text = os.getenv("GENEDIT_PORT") or g.getstring("The port that `genedit serve` printed:", "", "Draw together")
    return assert(math.tointeger(tonumber(text)), "no port: " .. text)
end

-- The program, as the environment says it. A path goes on from the folder in which Golly was started.
local function program()
    local path = os.getenv("GENEDIT") or "genedit"
    local goes_on = path:find("/") and path:sub(1, 1) ~= "/"
    return goes_on and os.getenv("PWD") .. "/" .. path or path
end

-- Starts a helper at a port, with its files in a folder; words are options of `genedit join`. Lines that answer
-- nothing are given to the function in `news` that has their first word as its name.
function board.start(folder, port, words, news)
    os.execute(START:format(quoted(folder), quoted(folder), quoted(program()), port, words))
    return board.helper(folder, news)
end

-- A helper that was started, to be heard from its first line on; nothing where there is none.
function board.helper(folder, news)
    local commands, output = io.open(folder .. "commands", "r+"), io.open(folder .. "news")
    if not commands or not output then return nil end
    commands:seek("end")
    local helper = {folder = folder, commands = commands, output = output, news = news, pieces = {}, asked = {}}
    return setmetatable(helper, Helper)
end

-- The whole lines that came since the last call. It never waits.
function Helper:lines()
    local text = self.output:read("a")
    self.output:seek("cur", 0) -- forgets that the file had ended
    local last = text:find("\n[^\n]*$")
    self.pieces[#self.pieces + 1] = text:sub(1, last)
    if not last then return function() end end
    local whole = table.concat(self.pieces)
    self.pieces = {text:sub(last + 1)}
    return whole:gmatch("([^\n]*)\n")
end

-- Where the first line begins that was not heard yet.
function Helper:position()
    return self.output:seek() - #table.concat(self.pieces)
end

-- Hears what came from a position on, also what was heard before.
function Helper:hear_from(position)
    self.output:seek("set", position)
    self.pieces = {}
    self:hear()
end

-- Hears what came. An answer goes to who asked. Where its server went away and came back, the helper tells that it
-- joined once more: under a new seat, at a board of the same rule; what it was asked meanwhile is answered then.
function Helper:hear()
    for line in self:lines() do
        local word = line:match("^%S*")
        local answered = ANSWERS[word] and table.remove(self.asked, 1)
        if answered then
            answered(line, word)
        elseif word == "process" then
            self.process = line:match("%d+")
        elseif word == "joined" then
            local is_again = self.seat ~= nil
            self.seat, self.rule = line:match("^joined (%d+) (%S+)$")
            if is_again then self.said = nil end
            if is_again and self.news.joined then self.news.joined(line) end
        elseif word == "ended" then
            self.ended = true
        elseif word:find(":$") then
            self.said = line
            if self.news.said then self.news.said(line) end
        elseif self.news[word] then
            self.news[word](line)
        end
    end
end

-- Says a command; what comes of it is told as news.
function Helper:say(command)
    self.commands:write(command, "\n")
    self.commands:flush()
end

-- Says a command. Once its answer is there, the answer's line and first word are given to a function.
function Helper:ask(command, answered)
    self:say(command)
    self.asked[#self.asked + 1] = answered
end

-- Hears until something is so, the helper has ended, or the time is over; whether it is so.
function Helper:await(seconds, is_so)
    local start = g.millisecs()
    while not is_so() and not self.ended and g.millisecs() - start < 1000 * seconds do
        g.sleep(5)
        g.doevent("") -- lets the user press Escape
        self:hear()
    end
    return is_so()
end

-- Whether the board let this helper in.
function Helper:is_joined()
    return self:await(15, function() return self.rule end)
end

-- Leaves the board. A helper that has not ended three seconds later is ended, as one that a server lets wait.
function Helper:leave()
    pcall(self.ask, self, "bye")
    local left, ended = pcall(self.await, self, 3, function() return self.ended end)
    if not (left and ended) and self.process then os.execute("kill " .. self.process) end
    self.commands:close()
    self.output:close()
    for _, name in ipairs {"commands", "news", "kept", "board.rle", "board.mc"} do os.remove(self.folder .. name) end
    os.remove(self.folder)
end

-- Why a helper that was not let in, or has ended, is not there.
function Helper:reason()
    return self.said or "genedit: no answer from the server"
end

-- The name of a board's layer, by the seat of now.
local function layer_name(port, seat)
    return "board of port " .. port .. ", seat " .. seat
end

-- Gives the board's layer the name of a new seat.
function Helper:rename_layer()
    local old = self.name
    self.name = layer_name(self.port, self.seat)
    for index = 0, g.numlayers() - 1 do
        if g.getname(index) == old then g.setname(self.name, index) end
    end
end

-- Opens an empty layer for a board, under its rule as it was told; a pattern that is there is left alone.
function Helper:open_layer(port)
    if not g.empty() then g.addlayer() end
    self.port, self.name = port, layer_name(port, self.seat)
    g.new(self.name)
    g.setrule(self.rule)
    g.setmag(3)
    g.setpos("0", "0")
    g.setcursor("Draw")
end

-- Whether a script's fault is that Escape was pressed.
function board.is_escape(fault)
    return tostring(fault):find("ABORT SCRIPT", 1, true) ~= nil
end

return board
