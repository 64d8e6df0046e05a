#!/usr/bin/env escript
%% Makes the calls of scripts/interop to erlang-jose. Each line of standard input is a JSON request, and each line of
%% standard output is a JSON answer.
main(_) ->
    {ok, _} = application:ensure_all_started(jose),
    io:setopts([binary]),
    answer_each().

answer_each() ->
    case io:get_line("") of
        eof -> ok;
        Line ->
            Ask = jiffy:decode(Line, [return_maps]),
            Answer = try #{ok => call(maps:get(<<"do">>, Ask), Ask)}
            catch _:Error -> #{refused => iolist_to_binary(io_lib:format("~0p", [Error]))}
            end,
            io:put_chars([jiffy:encode(Answer), "\n"]),
            answer_each()
    end.

octets(Name, Ask) -> jose_base64url:'decode!'(maps:get(Name, Ask)).

text_of(Some) -> jose_base64url:encode(Some, #{padding => false}).

first_key(Ask) -> jose_jwk:from_oct(jose_base64url:'decode!'(hd(maps:get(<<"keys">>, Ask)))).

key(Ask) -> jose_jwk:from_oct(octets(<<"key">>, Ask)).

in_form(#{<<"form">> := <<"compact", _/binary>>}, {_, _} = Token, Module) ->
    {_, Text} = Module:compact(Token),
    Text;
in_form(_, {_, Map}, _) -> iolist_to_binary(jiffy:encode(Map)).

token(<<"{", _/binary>> = Text) -> jiffy:decode(Text, [return_maps]);
token(Text) -> Text.

call(<<"sign">>, Ask) ->
    Header = #{<<"alg">> => hd(maps:get(<<"algs">>, Ask))},
    in_form(Ask, jose_jws:sign(first_key(Ask), octets(<<"payload">>, Ask), Header), jose_jws);
call(<<"verify">>, Ask) ->
    {true, Payload, _} = jose_jws:verify(key(Ask), token(maps:get(<<"text">>, Ask))),
    text_of(Payload);
call(<<"encrypt">>, Ask) ->
    Alg = hd(maps:get(<<"algs">>, Ask)),
    Header = #{<<"alg">> => Alg, <<"enc">> => maps:get(<<"enc">>, Ask)},
    Counted = case Alg of <<"PBES2", _/binary>> -> Header#{<<"p2c">> => 1000, <<"p2s">> => text_of(crypto:strong_rand_bytes(16))}; _ -> Header end,
    Zipped = case maps:get(<<"form">>, Ask) of <<"compact, zip">> -> Counted#{<<"zip">> => <<"DEF">>}; _ -> Counted end,
    in_form(Ask, jose_jwe:block_encrypt(first_key(Ask), octets(<<"plaintext">>, Ask), Zipped), jose_jwe);
call(<<"decrypt">>, Ask) ->
    {Plaintext, _} = jose_jwe:block_decrypt(key(Ask), token(maps:get(<<"text">>, Ask))),
    text_of(Plaintext).
