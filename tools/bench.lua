-- The requests of tools/bench.sh: wrk -s tools/bench.lua URL -- LOAD RECORDS SIZE
-- LOAD is fill (each record is put once, and then the numbers of the store are read), get, put, or mix (one
-- request in ten puts).
local threads = 0
function setup(thread)
    threads = threads + 1
    thread:set("number", threads)
end

-- A document of so many bytes.
local function document(record, size)
    local text = string.format('{"cat":%d,"name":"n%d","price":%d,"stock":%d', record % 10, record, 37 * record % 1000, record % 50)
    local rest = size - #text - #',"pad":""}'
    if rest >= 0 then text = text .. ',"pad":"' .. string.rep("x", rest) .. '"' end
    return text .. "}"
end

local load, records
local reads, writes = {}, {}
local sent = 0

function init(args)
    load, records = args[1], tonumber(args[2])
    math.randomseed(number * 7919)
    for record = 0, records - 1 do
        local path = "/v1/d/shop/p" .. record
        reads[record] = wrk.format("GET", path)
        writes[record] = wrk.format("PUT", path, nil, document(record, tonumber(args[3])))
    end
end

function request()
    sent = sent + 1
    if load == "fill" then
        -- wrk asks for one request that it does not send
        if sent <= records + 1 then return writes[(sent - 1) % records] end
        return wrk.format("GET", "/v1/stats")
    end
    local record = math.random(0, records - 1)
    if load == "put" or (load == "mix" and sent % 10 == 0) then return writes[record] end
    return reads[record]
end
