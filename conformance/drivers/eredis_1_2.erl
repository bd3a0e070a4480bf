%% eredis 1.2 (erlang-redis-client): eredis_parser.
%% needs: escript /usr/lib/erlang/lib/redis_client-1.2.0/ebin/eredis_parser.beam
%% run: escript {FILE}
-module(eredis_1_2).
-export([main/1]).

main(["--about"]) ->
    io:put_chars("{\"parser\": \"eredis 1.2.0\", \"profiles\": [\"resp2\"], \"integers\": \"text\", \"same\": [[\"null\", \"nullbulk\", \"nullarray\"], "
                 "[\"bulk\", \"simple\", \"integer\"]]}\n");
main([]) ->
    code:add_patha("/usr/lib/erlang/lib/redis_client-1.2.0/ebin"),
    io:setopts([binary, {encoding, latin1}]),
    lines().

lines() ->
    case io:get_line("") of
        eof -> ok;
        Line ->
            [Id, _ | Rest] = binary:split(string:trim(Line), <<" ">>, [global]),
            Pieces = [binary:decode_hex(P) || P <- binary:split(iolist_to_binary(Rest), <<",">>, [global]), P =/= <<"end">>, P =/= <<>>],
            {Values, End} = judged(eredis_parser:init(), Pieces, []),
            io:put_chars(["{\"id\": \"", Id, "\", \"values\": [", lists:join(", ", lists:reverse(Values)), "], \"end\": \"", End, "\"}\n"]),
            lines()
    end.

%% As eredis_client does with the bytes of its socket.
judged(_, [], Values) -> {Values, "more"};
judged(State, [Piece | Pieces], Values) ->
    case catch eredis_parser:parse(State, Piece) of
        {ReturnCode, Value, New} when ReturnCode =:= ok; ReturnCode =:= error -> judged(New, Pieces, [reply(ReturnCode, Value) | Values]);
        {ReturnCode, Value, Rest, New} -> judged(New, [Rest | Pieces], [reply(ReturnCode, Value) | Values]);
        {continue, New} -> judged(New, Pieces, Values);
        _ -> {Values, "error"}
    end.

reply(error, Text) -> ["[\"error\", ", quoted(Text), "]"];
reply(ok, Value) -> told(Value).

told(undefined) -> "[\"null\"]";
told(List) when is_list(List) -> ["[\"array\", [", lists:join(", ", [told(It) || It <- List]), "]]"];
told(Text) -> ["[\"bulk\", ", quoted(Text), "]"].

quoted(Text) -> [$", [escaped(Byte) || <<Byte>> <= Text], $"].

escaped(Byte) when Byte < 32; Byte > 126; Byte =:= $"; Byte =:= $\\ -> io_lib:format("\\u~4.16.0b", [Byte]);
escaped(Byte) -> Byte.
