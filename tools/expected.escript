#!/usr/bin/env escript
%% Prints what `info`, `show` and `strip` should print of each file, as Erlang's own beam_lib tells it, and
%% the names of its instructions in order, as beam_disasm tells them.
%% Words: the folder for the outputs, and the files. Output N of a command stands in FOLDER/N.COMMAND.
%% FOLDER/N.beam is a form with the literals of file N unpacked, and FOLDER/N.plain what is to be shown
%% of them; made.beam and made.plain are the same for literals that are made here.
-mode(compile).

main([Folder | Files]) ->
    lists:foldl(fun(File, N) -> one(Folder, N, File), N + 1 end, 1, Files),
    made(Folder).

one(Folder, N, File) ->
    {ok, Bytes} = file:read_file(File),
    {ok, _, Chunks} = beam_lib:all_chunks(Bytes),
    put_text(Folder, N, "info",
             [io_lib:format("form ~w~n", [byte_size(Bytes) - 8]) |
              [io_lib:format("~s ~w~n", [Id, byte_size(Payload)]) || {Id, Payload} <- Chunks]]),
    {ok, {_, [{atoms, Atoms}, {imports, Imports}]}} = beam_lib:chunks(Bytes, [atoms, imports]),
    put_text(Folder, N, "atoms", [io_lib:format("~w ~ts~n", [I, name(A)]) || {I, A} <- Atoms]),
    put_text(Folder, N, "imports",
             [io_lib:format("~w ~ts:~ts/~w~n", [I, name(M), name(F), A])
              || {I, {M, F, A}} <- lists:zip(lists:seq(0, length(Imports) - 1), in_file(Bytes, Imports))]),
    table(Folder, N, Bytes, Atoms, "exports", "ExpT"),
    table(Folder, N, Bytes, Atoms, "locals", "LocT"),
    funs(Folder, N, Bytes, Atoms),
    lines(Folder, N, Chunks),
    term(Folder, N, Chunks, "attributes", "Attr"),
    term(Folder, N, Chunks, "compile", "CInf"),
    literals(Folder, N, Chunks),
    stripped(Folder, N, Bytes, Chunks),
    instructions(Folder, N, File).

%% The chunks that beam_lib keeps where it strips a file, with its payloads, in the order of the file.
%% (It writes them gzipped and in an order of its own.)
stripped(Folder, N, Bytes, Chunks) ->
    {ok, {_, Stripped}} = beam_lib:strip(Bytes),
    {ok, _, Kept} = beam_lib:all_chunks(Stripped),
    InOrder = [lists:keyfind(Id, 1, Kept) || {Id, _} <- Chunks, lists:keymember(Id, 1, Kept)],
    true = length(InOrder) =:= length(Kept),
    Body = [<<"BEAM">> | [[Id, <<(byte_size(Payload)):32>>, Payload, <<0:(-byte_size(Payload) band 3 * 8)>>]
                          || {Id, Payload} <- InOrder]],
    ok = file:write_file(path(Folder, N, "strip"), [<<"FOR1", (iolist_size(Body)):32>>, Body]).

%% The names of the instructions. beam_disasm drops the last one, writes those of tests, built-in functions
%% and float arithmetic behind a tag, and turns the label and the line before a func_info but the first round.
instructions(Folder, N, File) ->
    {beam_file, _, _, _, _, Functions} = beam_disasm:file(File),
    put_text(Folder, N, "names",
             [[[instruction(I), $\n] || {function, _, _, _, Is} <- Functions, I <- turned(Is)], "int_code_end\n"]).

turned([{line, _} = Line, {label, _} = Label, {func_info, _, _, _} = Info | Is]) -> [Label, Line, Info | Is];
turned(Is) -> Is.

instruction(I) when is_atom(I) -> atom_to_list(I);
instruction(I) when element(1, I) =:= test -> atom_to_list(element(2, I));
instruction({bif, _, _, Args, _}) -> ["bif", integer_to_list(length(Args))];
instruction({gc_bif, _, _, _, Args, _}) -> ["gc_bif", integer_to_list(length(Args))];
instruction({arithfbif, Name, _, _, _}) -> atom_to_list(Name);
instruction(I) -> atom_to_list(element(1, I)).

%% beam_lib sorts the imports; the payload gives their order.
in_file(Bytes, Imports) ->
    {ok, {_, [{"ImpT", <<_:32, Payload/binary>>}, {atoms, Atoms}]}} = beam_lib:chunks(Bytes, ["ImpT", atoms]),
    Order = [{atom(M, Atoms), atom(F, Atoms), A} || <<M:32, F:32, A:32>> <= Payload],
    true = lists:sort(Order) =:= lists:sort(Imports),
    Order.

table(Folder, N, Bytes, Atoms, What, Id) ->
    case beam_lib:chunks(Bytes, [Id]) of
        {ok, {_, [{Id, <<_:32, Payload/binary>>}]}} ->
            put_text(Folder, N, What,
                     [io_lib:format("~ts/~w ~w~n", [name(atom(F, Atoms)), A, L])
                      || <<F:32, A:32, L:32>> <= Payload]);
        _ -> put_text(Folder, N, What, ["missing ", Id, $\n])
    end.

funs(Folder, N, Bytes, Atoms) ->
    case beam_lib:chunks(Bytes, ["FunT"]) of
        {ok, {_, [{_, <<_:32, Payload/binary>>}]}} ->
            Rows = [{F, A, L, I, Free, U} || <<F:32, A:32, L:32, I:32, Free:32, U:32>> <= Payload],
            put_text(Folder, N, "funs",
                     [io_lib:format("~w ~ts/~w label ~w index ~w free ~w unique ~w~n",
                                    [K, name(atom(F, Atoms)), A, L, I, Free, U])
                      || {K, {F, A, L, I, Free, U}} <- lists:zip(lists:seq(0, length(Rows) - 1), Rows)]);
        _ -> put_text(Folder, N, "funs", "missing FunT\n")
    end.

atom(I, Atoms) -> {I, A} = lists:keyfind(I, 1, Atoms), A.

%% The places of the lines and the names of the files, by a reading of the table that is its own.
lines(Folder, N, Chunks) ->
    case lists:keyfind("Line", 1, Chunks) of
        {_, <<0:32, _Flags:32, Instructions:32, Lines:32, Files:32, Rest/binary>>} ->
            {Places, Names} = places(Lines, 0, Rest, []),
            put_text(Folder, N, "lines",
                     [io_lib:format("instructions ~w~n", [Instructions]),
                      [io_lib:format("~w ~w:~w~n", [I, File, Line])
                       || {I, {File, Line}} <- lists:zip(lists:seq(1, Lines), Places)],
                      [io_lib:format("file ~w ~ts~n", [I, name_of(Name)])
                       || {I, Name} <- lists:zip(lists:seq(1, Files), file_names(Names))]]);
        false -> put_text(Folder, N, "lines", "missing Line\n")
    end.

places(0, _, Rest, Places) -> {lists:reverse(Places), Rest};
places(Count, File, Bytes, Places) ->
    case operand(Bytes) of
        {1, Line, Rest} -> places(Count - 1, File, Rest, [{File, Line} | Places]);
        {2, Other, Rest} -> places(Count, Other, Rest, Places)
    end.

file_names(<<>>) -> [];
file_names(<<Size:16, Name:Size/binary, Rest/binary>>) -> [Name | file_names(Rest)].

%% The tag and the number of an operand, and what is behind it.
operand(<<Number:4, 0:1, Tag:3, Rest/binary>>) -> {Tag, Number, Rest};
operand(<<High:3, 1:2, Tag:3, Low:8, Rest/binary>>) -> {Tag, High * 256 + Low, Rest};
operand(<<Size:3, 3:2, Tag:3, Rest/binary>>) when Size < 7 ->
    Bits = (Size + 2) * 8,
    <<Number:Bits/signed, Behind/binary>> = Rest,
    {Tag, Number, Behind}.

%% The term of a chunk.
term(Folder, N, Chunks, What, Id) ->
    case lists:keyfind(Id, 1, Chunks) of
        {_, Payload} ->
            Term = binary_to_term(Payload),
            has_large_map(Term) orelse put_text(Folder, N, What, [text(Term), $\n]);
        false -> put_text(Folder, N, What, ["missing ", Id, $\n])
    end.

%% The table of literals as it is, and a form with the same literals unpacked. A literal with a map of
%% more than 32 keys is left out there, since such maps have no order that can be told from the term.
literals(Folder, N, Chunks) ->
    case lists:keyfind("LitT", 1, Chunks) of
        {_, <<0:32, _:32, Table/binary>>} ->
            put_text(Folder, N, "literals", literal_lines(in_table(Table)));
        {_, <<Size:32, Packed/binary>>} ->
            put_text(Folder, N, "literals", "packed\n"),
            <<Count:32, Table/binary>> = Whole = zlib:uncompress(Packed),
            Size = byte_size(Whole),
            Literals = in_table(Table),
            Count = length(Literals),
            put_form(Folder, N, Chunks, [L || L <- Literals, not has_large_map(binary_to_term(L))]);
        false -> put_text(Folder, N, "literals", "missing LitT\n")
    end.

in_table(Table) -> [Literal || <<Size:32, Literal:Size/binary>> <= Table].

%% A form with these literals, unpacked, and what is to be shown of them.
put_form(Folder, N, Chunks, Literals) ->
    Plain = [<<0:32, (length(Literals)):32>>, [<<(byte_size(L)):32, L/binary>> || L <- Literals]],
    {ok, Form} = beam_lib:build_module(lists:keystore("LitT", 1, Chunks, {"LitT", iolist_to_binary(Plain)})),
    ok = file:write_file(path(Folder, N, "beam"), Form),
    put_text(Folder, N, "plain", literal_lines(Literals)).

literal_lines(Literals) ->
    [io_lib:format("~w ~ts~n", [I, literal(L)])
     || {I, L} <- lists:zip(lists:seq(0, length(Literals) - 1), Literals)].

%% A literal that holds a float, or more than 256 terms in one another, is shown as its bytes.
literal(Bytes) ->
    Term = binary_to_term(Bytes),
    case has_float(Term) orelse depth(Term) > 256 of
        true -> ["bytes ", hex(Bytes)];
        false -> text(Term)
    end.

%% Literals of each kind and size, the same in each run.
made(Folder) ->
    _ = rand:seed(exsss, {1, 2, 3}),
    Edges = [Sign * ((1 bsl Bits) + Off) || Bits <- lists:seq(0, 300), Off <- [-1, 0, 1], Sign <- [1, -1]],
    Names = [list_to_atom([C]) || C <- lists:seq(0, 300)] ++ ['', 'a B', a@b_C9, 'Ab', '9', '@a', '_a', 'ünï', '日本'],
    Lists = [lists:seq(0, 255), lists:duplicate(65535, $a), lists:duplicate(65536, $a), [-1], [256, 1], "a" ++ [b]],
    Deep = [lists:foldl(fun(_, T) -> F(T) end, [], lists:seq(1, Levels))
            || Levels <- [254, 255, 256, 257],
               F <- [fun(T) -> {T} end, fun(T) -> [T] end, fun(T) -> [a | {T}] end, fun(T) -> #{k => T} end, fun(T) -> #{T => 1} end]],
    Bits = [<<-1:Size>> || Size <- lists:seq(0, 40)],
    Tuples = [list_to_tuple(lists:seq(1, Size)) || Size <- [0, 1, 255, 256, 300]],
    Maps = [maps:from_list([{K, -K} || K <- lists:seq(1, Size)]) || Size <- [0, 1, 31, 32]],
    Funs = [fun lists:map/2, fun 'A b':'\n'/255],
    Some = [random(5) || _ <- lists:seq(1, 5000)],
    Terms = Edges ++ Names ++ Lists ++ Deep ++ Bits ++ Tuples ++ Maps ++ Funs ++ Some,
    put_form(Folder, "made", [], [term_to_binary(Term) || Term <- Terms]).

random(0) -> random_flat(rand:uniform(6));
random(Levels) ->
    case rand:uniform(5) of
        1 -> list_to_tuple(some(Levels));
        2 -> some(Levels);
        3 -> some(Levels) ++ random(Levels - 1);
        4 -> maps:from_list([{K, random(Levels - 1)} || K <- some(Levels)]);
        5 -> random(0)
    end.

some(Levels) -> [random(Levels - 1) || _ <- lists:seq(1, rand:uniform(5) - 1)].

random_flat(1) -> rand:uniform(300) - 20;
random_flat(2) -> rand:uniform(1 bsl (8 * rand:uniform(20))) - rand:uniform(1 bsl 64);
random_flat(3) -> list_to_atom([rand:uniform(400) - 1 || _ <- lists:seq(1, rand:uniform(4) - 1)]);
random_flat(4) -> [rand:uniform(256) - 1 || _ <- lists:seq(1, rand:uniform(6) - 1)];
random_flat(5) -> rand:bytes(rand:uniform(9) - 1);
random_flat(6) -> <<(rand:uniform(1 bsl 20)):(rand:uniform(20))>>.

%% The text of a term.
text(Term) when is_integer(Term), abs(Term) < 1 bsl 128 -> integer_to_list(Term);
text(Term) when is_integer(Term), Term < 0 -> [$- | text(-Term)];
text(Term) when is_integer(Term) -> ["16#", hex(binary:encode_unsigned(Term))];
text(Term) when is_atom(Term) -> name(Term);
text(Term) when is_tuple(Term) -> [${, commas([text(T) || T <- tuple_to_list(Term)]), $}];
text([]) -> "[]";
text(Term) when is_list(Term) ->
    {Items, Tail} = split(Term),
    [$[, commas([text(T) || T <- Items]), [[$|, text(Tail)] || Tail =/= []], $]];
text(Term) when is_binary(Term) -> ["<<", hex(Term), ">>"];
text(Term) when is_bitstring(Term) ->
    Unused = -bit_size(Term) band 7,
    ["<<", hex(<<Term/bitstring, 0:Unused>>), io_lib:format("/~w>>", [bit_size(Term)])];
text(Term) when is_map(Term) ->
    %% OTP 25 writes a map of up to 32 keys in the order of its keys.
    ["#{", commas([[text(K), "=>", text(V)] || {K, V} <- lists:sort(maps:to_list(Term))]), $}];
text(Term) when is_function(Term) ->
    {module, M} = erlang:fun_info(Term, module),
    {name, F} = erlang:fun_info(Term, name),
    {arity, A} = erlang:fun_info(Term, arity),
    ["fun ", name(M), $:, name(F), io_lib:format("/~w", [A])].

commas(Texts) -> lists:join($,, Texts).

hex(Bytes) -> [io_lib:format("~2.16.0b", [B]) || <<B>> <= Bytes].

%% The items of a list, and its tail.
split([Item | Rest]) -> {Items, Tail} = split(Rest), {[Item | Items], Tail};
split(Tail) -> {[], Tail}.

has_large_map(Term) -> is_map(Term) andalso map_size(Term) > 32 orelse lists:any(fun has_large_map/1, parts(Term)).

has_float(Term) -> is_float(Term) orelse lists:any(fun has_float/1, parts(Term)).

%% The terms that stand right in a term, as it is written: a list of bytes is one of its own.
parts(Term) when is_tuple(Term) -> tuple_to_list(Term);
parts(Term) when is_map(Term) -> maps:keys(Term) ++ maps:values(Term);
parts([]) -> [];
parts(Term) when is_list(Term) ->
    {Items, Tail} = split(Term),
    case Tail =:= [] andalso length(Items) < 65536 andalso lists:all(fun is_byte/1, Items) of
        true -> [];
        false -> [Tail | Items]
    end;
parts(Term) when is_function(Term) -> [0];
parts(_) -> [].

is_byte(Item) -> is_integer(Item) andalso 0 =< Item andalso Item =< 255.

depth(Term) -> 1 + lists:foldl(fun(Part, Most) -> max(depth(Part), Most) end, 0, parts(Term)).

%% A name as it is where it begins with a to z and goes on in letters, digits, _ and @.
name(Atom) -> name_of(atom_to_binary(Atom)).

name_of(<<First, Rest/binary>> = Name) when $a =< First, First =< $z ->
    case lists:all(fun is_name_byte/1, binary_to_list(Rest)) of
        true -> Name;
        false -> quoted(Name)
    end;
name_of(Name) -> quoted(Name).

is_name_byte(B) ->
    $a =< B andalso B =< $z orelse $A =< B andalso B =< $Z orelse $0 =< B andalso B =< $9
        orelse B =:= $_ orelse B =:= $@.

quoted(Name) -> [$', [escaped(C) || <<C/utf8>> <= Name], $'].

escaped($') -> "\\'";
escaped($\\) -> "\\\\";
escaped(C) when C < 32; C =:= 127 -> io_lib:format("\\x~2.16.0b", [C]);
escaped(C) -> C.

put_text(Folder, N, What, Text) -> ok = file:write_file(path(Folder, N, What), unicode:characters_to_binary(Text)).

path(Folder, N, What) -> filename:join(Folder, io_lib:format("~ts.~ts", [label(N), What])).

label(N) when is_integer(N) -> integer_to_list(N);
label(N) -> N.
