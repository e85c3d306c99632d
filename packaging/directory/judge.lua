-- haproxy asks the judge whether a name and a password are right: `http-request lua.judge`, by packaging/haproxy.cfg. It reads txn.user and
-- txn.password, and sets txn.judged: `right`, `wrong`, `later`, or `away` where there is no answer. Where they are right, txn.own is
-- the account, or `-`, and txn.may_print and txn.may_operate are what the directory's groups allow.
local PLACE = os.getenv("JUDGE")
-- Seconds.
local PATIENCE = 12

local function answer(name, password, code)
    local socket = core.tcp()
    socket:settimeout(PATIENCE)
    if not socket:connect("unix@" .. PLACE) then return nil end
    local line = socket:send("ask " .. code(name) .. " " .. code(password) .. "\n") and socket:receive("*l")
    socket:close()
    return line
end

core.register_action("judge", { "http-req" }, function(txn)
    txn:set_var("txn.judged", "away")
    local name, password = txn:get_var("txn.user"), txn:get_var("txn.password")
    local line = name and password and answer(name, password, function(text) return txn.c:base64(text) end)
    if not line then return end
    local account, may_print, may_operate = line:match("^right ([a-z0-9-]+) ([a-z-]+) ([a-z-]+)$")
    if account then
        txn:set_var("txn.judged", "right")
        txn:set_var("txn.own", account)
        txn:set_var("txn.may_print", may_print == "print")
        txn:set_var("txn.may_operate", may_operate == "operate")
    elseif line == "wrong" or line == "later" then
        txn:set_var("txn.judged", line)
    end
end, 0)
