%% Writes what a node tells with each flag of erlang:trace/3 and of seq_trace, as its file trace port writes it, and a
%% table of it: erlc forms.erl && erl -noshell -s forms main FOLDER. It was run with Erlang/OTP 25. FOLDER/forms.trc is
%% the stream. FOLDER/forms.txt has a line for each of its messages: the kind, the process or port, the function, the
%% time, with blanks between them and - for what isn't told. `row` has the forms as the manuals list them.
-module(forms).
-export([main/1, called/1, failed/0, child/0, exiting/0, swap/0]).

main([Folder]) ->
    {ok, _} = application:ensure_all_started(runtime_tools),
    Name = filename:join(Folder, "forms"),
    Open = dbg:trace_port(file, Name ++ ".trc"),
    Port = Open(),
    [record(Port, Stamps ++ Scheduler) || Stamps <- stamps(), Scheduler <- [[], [scheduler_id]]],
    [sequential(Port, Stamps) || Stamps <- stamps()],
    too_large(Port),
    erlang:trace_delivered(all),
    timer:sleep(200),
    port_close(Port),
    {ok, Stream} = file:read_file(Name ++ ".trc"),
    ok = file:write_file(Name ++ ".txt", [line(row(Message)) || Message <- messages(Stream)]),
    halt().

stamps() -> [[], [timestamp], [monotonic_timestamp], [strict_monotonic_timestamp]].

%% ---- what is traced

record(Port, Flags) ->
    plain([call | Flags], Port),
    plain([call, arity | Flags], Port),
    with_result(Port, Flags),
    trace(fun messages_come/0, [send, 'receive' | Flags], Port),
    trace(fun processes/0, [procs, set_on_spawn | Flags], Port),
    trace(fun swap/0, [running | Flags], Port),
    trace(fun exiting/0, [exiting | Flags], Port),
    length(Flags) < 2 andalso trace(fun collect/0, [garbage_collection | Flags], Port),
    ports([ports, running_ports, send, 'receive' | Flags], Port).

plain(Flags, Port) ->
    erlang:trace_pattern({?MODULE, called, 1}, [], [local]),
    trace(fun() -> called([97, 98]) end, Flags, Port).

%% the patterns cx and {message,Term}, also of messages that are sent and come
with_result(Port, Flags) ->
    Caller = [{'_', [], [{exception_trace}, {message, {caller}}]}],
    [erlang:trace_pattern({?MODULE, Name, '_'}, Caller, [local]) || Name <- [called, failed]],
    trace(fun() -> called(7), catch failed(), ok end, [call, return_to | Flags], Port),
    [erlang:trace_pattern({?MODULE, Name, '_'}, false, [local]) || Name <- [called, failed]],
    Added = [{'_', [], [{message, {{added, "text"}}}]}],
    [erlang:trace_pattern(Event, Added, []) || Event <- [send, 'receive']],
    trace(fun messages_come/0, [send, 'receive' | Flags], Port),
    [erlang:trace_pattern(Event, true, []) || Event <- [send, 'receive']].

trace(Work, Flags, Port) ->
    {Tracee, Monitor} = spawn_monitor(fun() -> receive go -> Work() end end),
    erlang:trace(Tracee, true, [{tracer, Port} | Flags]),
    Tracee ! go,
    receive {'DOWN', Monitor, process, Tracee, _} -> ok end,
    Delivered = erlang:trace_delivered(Tracee),
    receive {trace_delivered, Tracee, Delivered} -> ok end.

called(Argument) -> {Argument, length([Argument])}.

failed() -> erlang:error(failed).

messages_come() ->
    {Gone, Monitor} = spawn_monitor(fun() -> ok end),
    receive {'DOWN', Monitor, process, Gone, _} -> ok end,
    Gone ! lost,
    self() ! kept,
    receive kept -> ok end.

processes() ->
    Child = spawn_link(?MODULE, child, []),
    unlink(Child),
    register(forms, self()),
    unregister(forms),
    Child ! stop,
    Monitor = monitor(process, Child),
    receive {'DOWN', Monitor, process, Child, _} -> ok end.

child() -> receive stop -> ok end.

swap() -> erlang:yield().

%% a large table takes a while to be cleared
exiting() ->
    Table = ets:new(table, []),
    ets:insert(Table, [{Number} || Number <- lists:seq(1, 5000)]),
    exit(done).

collect() -> erlang:garbage_collect(self(), [{type, minor}]).

ports(Flags, Tracer) ->
    erlang:trace(new_ports, true, [{tracer, Tracer} | Flags]),
    Cat = open_port({spawn, "cat"}, [binary]),
    erlang:trace(new_ports, false, [all]),
    register(forms, Cat),
    unregister(forms),
    Cat ! {self(), {command, <<"hej">>}},
    receive {Cat, {data, _}} -> ok end,
    unlink(Cat),
    link(Cat),
    port_close(Cat),
    Delivered = erlang:trace_delivered(all),
    receive {trace_delivered, all, Delivered} -> ok end.

sequential(Tracer, Stamps) ->
    Before = seq_trace:set_system_tracer(Tracer),
    Work = fun() ->
        seq_trace:set_token(label, 17),
        [seq_trace:set_token(Flag, true) || Flag <- [send, 'receive', print] ++ Stamps],
        self() ! hello,
        receive hello -> ok end,
        seq_trace:print(17, {any, "term"}),
        seq_trace:set_token([])
    end,
    {Worker, Monitor} = spawn_monitor(Work),
    receive {'DOWN', Monitor, process, Worker, _} -> ok end,
    seq_trace:set_system_tracer(Before).

too_large(Port) ->
    Grow = fun() ->
        process_flag(max_heap_size, #{size => 1000, kill => true, error_logger => false}),
        lists:seq(1, 100000)
    end,
    trace(Grow, [garbage_collection], Port).

%% ---- what is told of it

messages(<<0, Size:32, Data:Size/binary, More/binary>>) -> [binary_to_term(Data) | messages(More)];
messages(<<>>) -> [].

row({seq_trace, _Label, _Info}) -> {seq_trace, none, none, none};
row({seq_trace, _Label, _Info, Stamp}) -> {seq_trace, none, none, Stamp};
row(Message) when element(1, Message) =:= trace ->
    [trace, Tracee | Rest] = tuple_to_list(Message),
    {Kind, Function} = traced(Rest),
    {Kind, Tracee, Function, none};
row(Message) when element(1, Message) =:= trace_ts ->
    [trace_ts, Tracee | Rest] = tuple_to_list(Message),
    {Kind, Function} = traced(lists:droplast(Rest)),
    {Kind, Tracee, Function, lists:last(Rest)}.

%% without the scheduler's number, which is the last
traced([call, Function]) -> {call, Function};
traced([call, Function, _Result]) -> {call, Function};
traced([call, Function, _Result, Scheduler]) when is_integer(Scheduler) -> {call, Function};
traced([return_from, Function, _Value]) -> {return, Function};
traced([return_from, Function, _Value, Scheduler]) when is_integer(Scheduler) -> {return, Function};
traced([exception_from, Function, {_Class, _Reason}]) -> {exception, Function};
traced([exception_from, Function, {_Class, _Reason}, Scheduler]) when is_integer(Scheduler) -> {exception, Function};
traced([send_to_non_existing_process | _]) -> {send_lost, none};
traced([Tag | _]) -> {Tag, none}.

line({Kind, Tracee, Function, Stamp}) ->
    io_lib:format("~s ~s ~s ~s~n", [Kind, tracee(Tracee), function(Function), stamp(Stamp)]).

tracee(none) -> "-";
tracee(Pid) when is_pid(Pid) ->
    <<131, 88, 119, Size, Node:Size/binary, Id:32, Serial:32, Creation:32>> = term_to_binary(Pid, [{minor_version, 2}]),
    io_lib:format("<~s.~b.~b.~b>", [Node, Id, Serial, Creation]);
tracee(Port) when is_port(Port) ->
    <<131, 89, 119, Size, Node:Size/binary, Id:32, Creation:32>> = term_to_binary(Port, [{minor_version, 2}]),
    io_lib:format("#Port<~s.~b.~b>", [Node, Id, Creation]).

function(none) -> "-";
function({Module, Name, Arguments}) when is_list(Arguments) -> function({Module, Name, length(Arguments)});
function({Module, Name, Arity}) -> io_lib:format("~s:~s/~b", [Module, Name, Arity]).

stamp(none) -> "-";
stamp(Stamp) -> io_lib:format("~0p", [Stamp]).
