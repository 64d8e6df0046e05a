#!/usr/bin/env luajit
-- Verifies a token with the shared library, and writes its payload: luajit verify-token.lua KEYS TOKEN, where both are files. After a refusal
-- it writes nothing but the refusal's name, and ends with 1. Every language that calls C can call the library like this.
local ffi = require("ffi")
ffi.cdef [[
    int lakhdzeva_verify(const char *keys, size_t keys_length, const char *object, size_t object_length, unsigned flags, char *payload, size_t room,
        size_t *length);
    const char *lakhdzeva_name(uint32_t status);
]]
local library = ffi.load(os.getenv("LAKHDZEVA_LIBRARY") or "liblakhdzeva.so.3")

local function contents(name)
    local file = assert(io.open(name, "rb"))
    local text = file:read("*a")
    file:close()
    return text
end

-- The call is made twice: without room it says how long the payload is (3 Write), and then the payload goes into a buffer of this length.
local function verify(keys, token)
    local length = ffi.new("size_t[1]")
    local status = library.lakhdzeva_verify(keys, #keys, token, #token, 0, nil, 0, length)
    local payload = ffi.new("char[?]", length[0] + 1)
    if status == 3 then
        status = library.lakhdzeva_verify(keys, #keys, token, #token, 0, payload, length[0], length)
    end
    if status ~= 0 then
        return nil, status .. " " .. ffi.string(library.lakhdzeva_name(status))
    end
    return ffi.string(payload, length[0])
end

local payload, refusal = verify(contents(arg[1]), contents(arg[2]))
if not payload then
    io.stderr:write("verify-token: ", refusal, "\n")
    os.exit(1)
end
io.write(payload)
