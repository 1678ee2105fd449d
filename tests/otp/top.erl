%% Has a node do what a table is to count, traced by dbg into a file, and counts what OTP's binary_to_term reads in it:
%% erlc top.erl && erl -noshell -s top main FOLDER timestamp, or with monotonic_timestamp or strict_monotonic_timestamp.
%% FOLDER/top.trc is the stream; `-s top read FOLDER` in place of main counts one that is there. FOLDER/top.function, top.process
%% and top.kind hold the rows of the tables as objects, top.unpaired the calls without an end and the ends without a call, and
%% top.folded the stacks of calls, all sorted. `take` counts, by docs/FORMATS.md. It was run with Erlang/OTP 25.
-module(top).
-export([main/1, read/1, fib/1, deep/1, last/2, outer/1, middle/1, inner/1, silent/1, fails/1, answer/2, 'en ström; till'/1]).

main([Folder, Stamp]) ->
    {ok, _} = application:ensure_all_started(runtime_tools),
    Name = filename:join(Folder, "top"),
    {ok, _} = dbg:tracer(port, dbg:trace_port(file, Name ++ ".trc")),
    [{ok, _} = dbg:tpl(?MODULE, Function, '_', Pattern) || {Function, Pattern} <- patterns()],
    work([call, send, 'receive', procs, set_on_spawn, Stamp]),
    timer:sleep(200), dbg:stop_clear(), timer:sleep(500),
    count(Name),
    halt().

read([Folder]) -> count(filename:join(Folder, "top")), halt().

count(Name) ->
    {ok, Stream} = file:read_file(Name ++ ".trc"),
    Messages = messages(Stream),
    None = #{stacks => #{}, nested => #{}, names => #{}, paired => 0, ends => ends(Messages)},
    Counted = lists:foldl(fun take/2, None, Messages),
    [ok = file:write_file(Name ++ "." ++ atom_to_list(Table), lists:sort(rows(Table, Counted)))
     || Table <- [function, process, kind, unpaired, folded]].

%% ---- what is traced

patterns() ->
    [{Function, [{'_', [], [{exception_trace}]}]} || Function <- [fib, deep, outer, middle, fails, 'en ström; till']]
        ++ [{Function, [{'_', [], [{return_trace}]}]} || Function <- [last, inner, answer]] ++ [{silent, []}].

work(Flags) ->
    Echo = spawn(fun echo/0),
    {ok, _} = dbg:p(Echo, Flags),
    Started = [spawn_monitor(fun() -> receive go -> rounds(Number, Echo, 14) end end) || Number <- lists:seq(1, 40)],
    [{ok, _} = dbg:p(Pid, [arity || Id band 1 =:= 1] ++ Flags) || {Id, {Pid, _}} <- lists:enumerate(Started)],
    [Pid ! go || {Pid, _} <- Started],
    [receive {'DOWN', Monitor, process, Pid, _} -> ok end || {Pid, Monitor} <- Started].

%% a worker ends by an exit within calls, and leaves a process whose call is open
rounds(Number, _, 0) -> spawn(fun() -> answer(none, self()) end), outer({exit, Number});
rounds(Number, Echo, Round) ->
    fib(6),
    deep(case {Number, Round} of {7, 3} -> 900; {8, 5} -> 300; _ -> Number band 15 end),
    last(10, []),
    [catch outer(Way) || Way <- [return, error, throw, caught, {exit, Round}, silent]],
    'en ström; till'(Number),
    [begin Echo ! {self(), Way}, receive {Echo, _} -> ok end end || Way <- [a, "text", Round]],
    Round rem 4 =:= 0 andalso killed(),
    rounds(Number, Echo, Round - 1).

fib(N) when N < 2 -> N;
fib(N) -> fib(N - 1) + fib(N - 2).
deep(0) -> 0;
deep(N) -> 1 + deep(N - 1).
last(0, Seen) -> length(Seen);
last(N, Seen) -> last(N - 1, [N | Seen]).
outer(Way) -> {middle(Way), inner(Way)}.
middle(caught) -> catch {fails(error)};
middle(silent) -> [silent(1), inner(silent), silent(2)];
middle(Way) -> inner(Way), fails(Way), silent(Way).
inner(Way) -> silent(Way), {Way}.
silent(Way) -> [Way].
fails(error) -> erlang:error(badarg);
fails(throw) -> throw(thrown);
fails({exit, Why}) -> exit(Why);
fails(_) -> ok.
'en ström; till'(N) -> lists:sum([fib(1) || _ <- lists:seq(1, N rem 3)]).

%% a process that is killed within its call, and a message that comes too late for it
killed() ->
    {Child, Monitor} = spawn_monitor(fun() -> answer(none, self()) end),
    timer:sleep(1),
    exit(Child, kill),
    receive {'DOWN', Monitor, process, Child, _} -> Child ! lost end.
echo() -> receive {From, What} -> answer(From, What), echo() end.
answer(none, Self) -> fib(2), receive {never, Self} -> ok end;
answer(From, What) -> From ! {self(), What}.

%% ---- what is counted

messages(<<0, Size:32, Data:Size/binary, More/binary>>) -> [binary_to_term(Data) | messages(More)];
messages(<<1, _Lost:32, More/binary>>) -> [lost | messages(More)];
messages(<<>>) -> [].

%% the functions of which an end is told
ends(Messages) ->
    maps:from_list([{element(4, Message), told} || Message <- Messages, Message =/= lost,
                                                   lists:member(element(3, Message), [return_from, exception_from])]).

take(lost, Counted) -> Counted#{stacks := #{}, nested := #{}};
take(Message, Counted) ->
    [trace_ts, Pid, Tag | Rest] = tuple_to_list(Message),
    Kind = kind(Tag),
    told(Kind, Pid, Rest, nanoseconds(lists:last(Rest)), add({kind, Kind}, count, 1, Counted)).
kind(return_from) -> return;
kind(exception_from) -> exception;
kind(send_to_non_existing_process) -> send_lost;
kind(Tag) -> Tag.
nanoseconds({Mega, Second, Micro}) -> ((Mega * 1000000 + Second) * 1000000 + Micro) * 1000;
nanoseconds({Monotonic, _Unique}) -> Monotonic;
nanoseconds(Monotonic) -> Monotonic.
told(call, Pid, [{M, F, Args} | More], Time, Counted) when is_list(Args) ->
    told(call, Pid, [{M, F, length(Args)} | More], Time, Counted);
told(call, Pid, [Function | _], Time, Counted) ->
    Called = add({process, Pid}, calls, 1, add({function, Function}, calls, 1, Counted)),
    nest(Pid, Function, Time, open(Pid, Function, Time, Called));
told(Kind, Pid, [Function | _], Time, Counted) when Kind =:= return; Kind =:= exception ->
    Ended = close(Pid, Function, Time, add({function, Function}, Kind, 1, Counted)),
    leave(Pid, lists:dropwhile(fun(Open) -> Open =/= Function end, nested(Pid, Ended)), 1, Time, Ended);
told(return_to, Pid, [Function | _], Time, Counted) ->
    Back = back(Pid, Function, Counted),
    leave(Pid, lists:dropwhile(fun(Open) -> Open =/= Function end, nested(Pid, Back)), 0, Time, Back);
told(exit, Pid, _, Time, Counted = #{stacks := Stacks}) ->
    put_stack(Pid, [], Time, Counted#{stacks := maps:remove(Pid, Stacks)});
told(register, Pid, [Name | _], _, Counted = #{names := Names}) -> Counted#{names := Names#{Name => Pid}};
told(unregister, _, [Name | _], _, Counted = #{names := Names}) -> Counted#{names := maps:remove(Name, Names)};
told('receive', Pid, _, _, Counted) -> wait(Pid, -1, add({process, Pid}, received, 1, Counted));
told(send, Pid, [_, To | _], _, Counted) when is_pid(To) -> wait(To, 1, add({process, Pid}, sent, 1, Counted));
told(send, Pid, [_, To | _], _, Counted = #{names := Names}) when is_atom(To) ->
    wait(maps:get(To, Names, To), 1, add({process, Pid}, sent, 1, Counted));
told(Kind, Pid, _, _, Counted) when Kind =:= send; Kind =:= send_lost -> add({process, Pid}, sent, 1, Counted);
told(_, _, _, _, Counted) -> Counted.
add(Row, Name, Number, Counted) ->
    Numbers = maps:get(Row, Counted, #{}),
    Counted#{Row => Numbers#{Name => maps:get(Name, Numbers, 0) + Number}}.

%% how many messages wait for a process, and the most that ever did
wait(Pid, More, Counted) ->
    Row = maps:get({process, Pid}, Counted, #{}),
    Now = max(0, number(now, Row) + More),
    Counted#{{process, Pid} => Row#{now => Now, waiting => max(Now, number(waiting, Row))}}.

%% the open calls of a process, each with its time and with how long calls took that had ended before it, and that time now
stack(Pid, #{stacks := Stacks}) -> maps:get(Pid, Stacks, {[], 0}).
open(Pid, Function, Time, Counted = #{stacks := Stacks}) ->
    {Stack, Ended} = stack(Pid, Counted),
    Counted#{stacks := Stacks#{Pid => {[{Function, Time, Ended} | Stack], Ended}}}.
newest(Function, Stack) -> lists:dropwhile(fun({Open, _, _}) -> Open =/= Function end, Stack).
back(Pid, Function, Counted = #{stacks := Stacks}) ->
    {Stack, Ended} = stack(Pid, Counted),
    case newest(Function, Stack) of
        [] -> Counted;
        Kept -> Counted#{stacks := Stacks#{Pid => {Kept, Ended}}}
    end.
close(Pid, Function, Time, Counted = #{stacks := Stacks, paired := Paired}) ->
    {Stack, Ended} = stack(Pid, Counted),
    case newest(Function, Stack) of
        [] -> Counted;
        [{_, Began, Before} | Outer] ->
            Took = max(0, Time - Began),
            Closed = Counted#{paired := Paired + 1, stacks := Stacks#{Pid => {Outer, Before + Took}}},
            timed(Function, Took, max(0, Took - (Ended - Before)), lists:keymember(Function, 1, Outer), Closed)
    end.
timed(Function, _, Own, true, Counted) -> add({function, Function}, own, Own, Counted);
timed(Function, Took, Own, false, Counted) ->
    Key = {function, Function},
    Row = maps:get(Key, Counted),
    Longest = Counted#{Key := Row#{longest => max(Took, maps:get(longest, Row, 0))}},
    add(Key, total, Took, add(Key, timed, 1, timed(Function, Took, Own, true, Longest))).

%% the functions of open calls of which an end is told
nested(Pid, #{nested := Nested}) -> element(1, maps:get(Pid, Nested, {[], 0})).
nest(Pid, Function, Time, Counted = #{ends := Ends}) ->
    Stack = nested(Pid, Counted),
    case Ends of
        #{Function := _} -> put_stack(Pid, [Function | Stack], Time, Counted);
        #{} -> add({folded, {Pid, shown([Function | Stack])}}, ran, 0, put_stack(Pid, Stack, Time, Counted))
    end.
leave(Pid, [], _, Time, Counted) -> put_stack(Pid, nested(Pid, Counted), Time, Counted);
leave(Pid, Stack, Count, Time, Counted) -> put_stack(Pid, lists:nthtail(Count, Stack), Time, Counted).
shown(Stack) -> lists:reverse(lists:sublist(Stack, 256)).

%% a stack of calls, of which the 256 innermost are told, has run until it is changed
put_stack(Pid, Stack, Time, Counted = #{nested := Nested}) ->
    Put = Counted#{nested := Nested#{Pid => {Stack, Time}}},
    case maps:get(Pid, Nested, {[], 0}) of
        {[], _} -> Put;
        {Before, Since} -> add({folded, {Pid, shown(Before)}}, ran, max(0, Time - Since), Put)
    end.

%% ---- what is told of it

rows(unpaired, Counted = #{paired := Paired}) ->
    Rows = [Row || {{function, _}, Row} <- maps:to_list(Counted)],
    All = fun(Names) -> lists:sum([number(Name, Row) || Row <- Rows, Name <- Names]) - Paired end,
    [io_lib:format("{\"calls_without_end\":~w,\"ends_without_call\":~w}~n", [All([calls]), All([return, exception])])];
rows(Table, Counted = #{stacks := Stacks, ends := Ends}) ->
    Open = [Function || {Stack, _} <- maps:values(Stacks), {Function, _, _} <- Stack, maps:is_key(Function, Ends)],
    [unicode:characters_to_binary([row(Table, Key, Row, Open), 10]) || {{Of, Key}, Row} <- maps:to_list(Counted), Of =:= Table].

row(function, Function, Row, Open) ->
    Count = length([same || Other <- Open, Other =:= Function]),
    {Longest, Mean, Total} = times(Row),
    Own = maps:get(own, Row, null),
    [io_lib:format("{\"calls\":~w,\"exceptions\":~w,\"function\":\"~ts\",", [number(calls, Row), number(exception, Row), function(Function)]),
     io_lib:format("\"longest\":~w,\"mean\":~w,\"open\":~w,\"own\":~w,\"returns\":~w,", [Longest, Mean, Count, Own, number(return, Row)]),
     io_lib:format("\"total\":~w}", [Total])];
row(process, Pid, Row, _) ->
    Numbers = [number(calls, Row), process(Pid), number(received, Row), number(sent, Row), waiting(Pid, Row)],
    io_lib:format("{\"calls\":~w,\"process\":\"~ts\",\"received\":~w,\"sent\":~w,\"waiting\":~w}", Numbers);
row(kind, Kind, Row, _) -> io_lib:format("{\"count\":~w,\"kind\":\"~ts\"}", [number(count, Row), Kind]);
row(folded, {Pid, Stack}, #{ran := Ran}, _) ->
    [process(Pid), [[";", function(Function)] || Function <- Stack], " ", integer_to_list(Ran div 1000)].
times(#{timed := Timed, total := Total, longest := Longest}) -> {Longest, Total div Timed, Total};
times(#{}) -> {null, null, null}.
number(Name, Row) -> maps:get(Name, Row, 0).
waiting(Name, _) when is_atom(Name) -> null;
waiting(_, #{waiting := Most}) when Most > 0 -> Most;
waiting(_, _) -> null.
function({M, F, Arity}) -> io_lib:format("~tp:~tp/~b", [M, F, Arity]).
process(Name) when is_atom(Name) -> io_lib:format("~tp", [Name]);
process(Pid) ->
    case term_to_binary(Pid, [{minor_version, 2}]) of
        <<131, 88, 119, Size, Node:Size/binary, Id:32, Serial:32, Creation:32>> ->
            io_lib:format("<~tp.~b.~b.~b>", [binary_to_atom(Node), Id, Serial, Creation]);
        <<131, 89, 119, Size, Node:Size/binary, Id:32, Creation:32>> ->
            io_lib:format("#Port<~tp.~b.~b>", [binary_to_atom(Node), Id, Creation])
    end.
