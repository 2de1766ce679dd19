#!/usr/bin/env escript
%%! +S 1:1 +sbwt none +sbwtdcpu none +sbwtdio none
%% Prints for each task how many microseconds of processor time Erlang's own tools take for these files, in
%% this one virtual machine, once it has done the task for all of them: the best of some rounds. The time is
%% that of all threads, with what the system does for them, which statistics(runtime) leaves out.
%% Words: the number of rounds, and a file that lists the files, one a line.
-mode(compile).

main([Rounds, List]) ->
    {ok, Names} = file:read_file(List),
    Files = [binary_to_list(Name) || Name <- binary:split(Names, <<"\n">>, [global, trim])],
    io:format("version ~s~n", [erlang:system_info(otp_release)]),
    [io:format("~s ~w~n", [Name, best(list_to_integer(Rounds), Task, Files)]) || {Name, Task} <- tasks()].

tasks() ->
    Tables = [atoms, indexed_imports, labeled_exports, labeled_locals, attributes, compile_info],
    Options = [allow_missing_chunks],
    [{"info", fun(File) -> beam_lib:info(File) end},
     {"show", fun(File) -> {ok, _} = beam_lib:chunks(File, Tables, Options) end},
     {"each", fun(File) -> [{ok, _} = beam_lib:chunks(File, [Table], Options) || Table <- Tables] end},
     {"cmp", fun(File) -> ok = beam_lib:cmp(File, File) end},
     {"strip", fun strip/1},
     {"disasm", fun(File) -> {beam_file, _, _, _, _, _} = beam_disasm:file(File) end}].

%% What beam_lib:strip does, but for packing the result.
strip(File) ->
    {ok, {_, Chunks}} = beam_lib:chunks(File, beam_lib:significant_chunks(), [allow_missing_chunks]),
    {ok, _} = beam_lib:build_module([Chunk || {_, Bytes} = Chunk <- Chunks, is_binary(Bytes)]).

best(Rounds, Task, Files) ->
    _ = round(Task, Files),
    lists:min([round(Task, Files) || _ <- lists:seq(1, Rounds)]).

round(Task, Files) ->
    garbage_collect(),
    Begin = used(),
    lists:foreach(Task, Files),
    (used() - Begin) div 1000.

%% The processor time of this virtual machine in nanoseconds.
used() ->
    {ok, Threads} = file:list_dir("/proc/self/task"),
    lists:sum([of_thread(Thread) || Thread <- Threads]).

of_thread(Thread) ->
    {ok, Line} = file:read_file(["/proc/self/task/", Thread, "/schedstat"]),
    binary_to_integer(hd(binary:split(Line, <<" ">>))).
