/* Lua as a guest: boots the interpreter, of unchanged source, and runs the script that is the console's input. `build` makes
 * the image. A script has the libraries of Lua, with the files of the disk behind io and dofile, and a table `snow`, by which
 * it forks: each child goes on with the whole interpreter as it is at that moment. */

#include <stdio.h>
#include <stdlib.h>
#include "lauxlib.h"
#include "lua.h"
#include "lualib.h"
#include "snow.h"

/* Fails a call that was refused, with the reason. */
static int refuse(lua_State *lua, uint32_t result)
{
    switch (result) {
    case SNOW_NO_TICKET:
        return luaL_error(lua, "there is no such ticket, or it was joined or killed");
    case SNOW_CLONED:
        return luaL_error(lua, "the children of the ticket were made already");
    case SNOW_NOT_CLONED:
        return luaL_error(lua, "the children of the ticket were not made yet");
    default:
        return luaL_error(lua, "there is no such sibling, or no child is asked for");
    }
}

/* Returns a result that is a number, or fails. */
static int answer(lua_State *lua, uint32_t result)
{
    if (snow_refused(result))
        return refuse(lua, result);
    lua_pushinteger(lua, result);
    return 1;
}

static uint32_t argument(lua_State *lua, int place)
{
    return (uint32_t)luaL_checkinteger(lua, place);
}

/* snow.ticket(children [, share]): a ticket, and for how many children it is; or nil and why not. */
static int ticket(lua_State *lua)
{
    uint32_t result = snow_ticket(argument(lua, 1), (uint32_t)luaL_optinteger(lua, 2, 0));

    if (result == SNOW_NO_ALLOT) {
        lua_pushnil(lua);
        lua_pushliteral(lua, "no machine is left for a child: see --clones");
        return 2;
    }
    answer(lua, result);
    lua_pushinteger(lua, snow_granted());
    return 2;
}

/* snow.clone(ticket): 0 in this machine, and in each child its number. */
static int clone(lua_State *lua)
{
    uint32_t child = snow_clone(argument(lua, 1));

    return answer(lua, child ? child : snow_result());
}

/* snow.join(ticket): waits until the children have ended, and tells how many they were. */
static int join(lua_State *lua)
{
    return answer(lua, snow_join(argument(lua, 1)));
}

/* snow.value(child): what a child of the last join exited with; or nil, where it came to its limit or is none. */
static int value(lua_State *lua)
{
    uint32_t child = argument(lua, 1);

    if (snow_kind(child) == SNOW_EXITED)
        lua_pushinteger(lua, snow_value(child));
    else
        lua_pushnil(lua);
    return 1;
}

/* snow.kill(ticket): drops the children, and tells how many they were. */
static int kill_children(lua_State *lua)
{
    return answer(lua, snow_kill(argument(lua, 1)));
}

/* snow.exit(value): ends this machine. */
static int end(lua_State *lua)
{
    snow_exit((uint32_t)luaL_optinteger(lua, 1, 0));
}

/* snow.send(sibling, word): waits where eight words wait there already. */
static int send(lua_State *lua)
{
    uint32_t result = snow_send(argument(lua, 1), argument(lua, 2));

    return result ? refuse(lua, result) : 0;
}

/* snow.receive(sibling): its next word, for which this machine waits; or nil, where the sibling has ended. */
static int receive(lua_State *lua)
{
    uint32_t word = 0, result = snow_receive(argument(lua, 1), &word);

    if (result == SNOW_ENDED)
        lua_pushnil(lua);
    else if (result)
        return refuse(lua, result);
    else
        lua_pushinteger(lua, word);
    return 1;
}

static const luaL_Reg calls[] = {
    {"ticket", ticket},     {"clone", clone}, {"join", join}, {"value", value},     {"kill", kill_children},
    {"exit", end},          {"send", send},   {"receive", receive},                 {NULL, NULL},
};

static int open_snow(lua_State *lua)
{
    luaL_newlib(lua, calls);
    return 1;
}

/* Loads the console's input as a script, and returns its status. */
static int load_input(lua_State *lua)
{
    luaL_Buffer script;

    luaL_buffinit(lua, &script);
    for (int byte; (byte = getchar()) != EOF;)
        luaL_addchar(&script, (char)byte);
    luaL_pushresult(&script);
    return luaL_loadbuffer(lua, lua_tostring(lua, -1), lua_rawlen(lua, -1), "=input");
}

/* Puts a traceback behind the message of an error. */
static int trace(lua_State *lua)
{
    luaL_traceback(lua, lua, luaL_tolstring(lua, 1, NULL), 1);
    return 1;
}

int main(void)
{
    lua_State *lua = luaL_newstate();

    if (!lua) {
        fputs("no memory is left for Lua\n", stderr);
        return EXIT_FAILURE;
    }
    luaL_openlibs(lua);
    luaL_requiref(lua, "snow", open_snow, 1);
    lua_pushcfunction(lua, trace);
    if (load_input(lua) != LUA_OK || lua_pcall(lua, 0, 0, 2 /* 1 is snow, 2 the tracer */) != LUA_OK) {
        fprintf(stderr, "%s\n", lua_tostring(lua, -1));
        return EXIT_FAILURE;
    }
    return EXIT_SUCCESS;
}
