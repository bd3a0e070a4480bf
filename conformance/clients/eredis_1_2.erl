%% eredis 1.2 (erlang-redis-client): its client.
%% needs: escript /usr/lib/erlang/lib/redis_client-1.2.0/ebin/eredis.beam
%% run: escript {FILE}
-module(eredis_1_2).
-export([main/1]).

main([Port]) ->
    code:add_patha("/usr/lib/erlang/lib/redis_client-1.2.0/ebin"),
    {ok, Client} = eredis:start_link("127.0.0.1", list_to_integer(Port)),
    [io:put_chars([told(catch eredis:q(Client, [Word], 3000)), "\n"]) || Word <- ["GET", "PING"]].

told({ok, Text}) -> ["value ", Text];
told({error, Text}) -> ["error ", Text];
told({'EXIT', {timeout, _}}) -> "no reply".
