%% Erlang's ASN.1 compiler as another codec, for tests/lower. It reads a command on each line of standard input and
%% answers with lines, of which the last is a dot. Terms go as base64 of their external form, octets as hexadecimal
%% digits.
%%
%%   compile FILE..               compiles modules for DER into the current folder, the imported ones first
%%   values MODULE TYPE SEED N    N random values: `value OCTETS TERM`, or `failed WHY` where it makes none of one
%%   texts MODULE TYPE SEED N     the same with the value in ASN.1's notation: `value OCTETS TERM NOTATION`
%%   encode MODULE TYPE TERM      a term in Erlang's syntax (base64): `octets OCTETS`
%%   same MODULE TYPE OCTETS TERM decodes and encodes again: `ok`, `unjudged WHY` where a constraint can't be judged, or
%%                                what differs
%%   equal MODULE TYPE OCTETS TERM  the same without encoding again
%%   decode MODULE TYPE OCTETS    `ok`, or what is wrong
%%
%% Values are made from the types that the compiler keeps in its own files, so that parameters, object classes,
%% automatic tags and the like are what this compiler makes of them. Its DER checks no constraints, no characters and no
%% form of times, so these are kept here, in `make_*` and `fits`.
-module(codec).
-export([main/0]).

main() ->
    process_flag(trap_exit, true),
    ok = io:setopts([{encoding, unicode}]),
    asn1_db:dbstart(["."]),
    loop().

loop() ->
    case io:get_line("") of
        Line when is_list(Line) ->
            Words = string:lexemes(Line, " \n"),
            try answer(Words) catch Class:Why:Stack -> say("error ~0p", [{Class, Why, lists:sublist(Stack, 3)}]) end,
            io:put_chars(".\n"),
            loop();
        _ -> halt(0)
    end.

say(Format, Arguments) ->
    Text = lists:flatten(io_lib:format(Format, Arguments)),
    io:put_chars([unicode:characters_to_binary([case C of $\n -> $\s; _ -> C end || C <- Text]), "\n"]).

answer(["compile" | Files]) ->
    lists:foreach(fun compile/1, Files);
answer(["values", Module, Type, Seed, Count]) ->
    values(list_to_atom(Module), list_to_atom(Type), list_to_integer(Seed), list_to_integer(Count), false);
answer(["texts", Module, Type, Seed, Count]) ->
    values(list_to_atom(Module), list_to_atom(Type), list_to_integer(Seed), list_to_integer(Count), true);
answer(["encode", Module, Type, Term]) ->
    {ok, Tokens, _} = erl_scan:string(binary_to_list(base64:decode(Term)) ++ "."),
    {ok, Value} = erl_parse:parse_term(Tokens),
    {ok, Octets} = (list_to_atom(Module)):encode(list_to_atom(Type), Value),
    say("octets ~s", [hex(Octets)]);
answer(["decode", Module, Type, Digits]) ->
    {ok, _} = decoded(list_to_atom(Module), list_to_atom(Type), binary:decode_hex(list_to_binary(Digits))),
    say("ok", []);
answer([Word, Module, Type, Digits, Term]) when Word =:= "same"; Word =:= "equal" ->
    Octets = binary:decode_hex(list_to_binary(Digits)),
    compare(list_to_atom(Module), list_to_atom(Type), Octets, binary_to_term(base64:decode(Term)), Word =:= "same").

hex(Octets) -> binary:encode_hex(iolist_to_binary(Octets)).

compile(File) ->
    case asn1ct:compile(File, [ber, der, maps, noobj, return_errors, {i, "."}]) of
        Fine when Fine =:= ok; element(1, Fine) =:= ok ->
            Module = list_to_atom(filename:basename(File, ".asn1")),
            {ok, Module, Code} = compile:file(atom_to_list(Module), [binary]),
            {module, Module} = code:load_binary(Module, atom_to_list(Module), Code),
            asn1_db:dbload(Module),
            say("compiled ~s", [File]);
        Wrong -> say("refused ~s ~0p", [File, Wrong])
    end.

%% ---- values

values(Module, Type, Seed, Count, Notated) ->
    rand:seed(exsss, Seed),
    lists:foreach(fun(_) -> value(Module, Type, Notated) end, lists:seq(1, Count)).

value(Module, Type, Notated) ->
    try
        Found = definition(Module, Type),
        Value = make(Module, Found, [], 0),
        {ok, Octets} = Module:encode(Type, Value),
        {ok, Again} = decoded(Module, Type, Octets),
        Text = case Notated of
            true -> [" ", base64:encode(unicode:characters_to_binary(notation(Module, Found, Value)))];
            false -> []
        end,
        say("value ~s ~s~s", [hex(Octets), base64:encode(term_to_binary(Again)), Text])
    catch
        throw:{left_out, What} -> say("failed ~0p", [What]);
        Class:Why:Stack -> say("failed ~0p", [{Class, Why, lists:sublist(Stack, 3)}])
    end.

decoded(Module, Type, Octets) ->
    case Module:decode(Type, Octets) of
        {ok, Value} -> {ok, Value};
        {ok, Value, <<>>} -> {ok, Value};
        Other -> Other
    end.

definition(Module, Name) ->
    case asn1_db:dbget(Module, Name) of
        {typedef, _, _, _, Found} -> Found;
        Other -> throw({left_out, {no_type, Module, Name, Other}})
    end.

pick(List) -> lists:nth(rand:uniform(length(List)), List).

chance(Part) -> rand:uniform() < Part.

%% A value of a type, under the constraints of references to it, nested so deep.
make(Module, {type, _, Def, Own, Table, _}, More, Depth) ->
    make_of(Module, Def, Own ++ More, Table, Depth).

make_of(_, {'Externaltypereference', _, Module, Name}, Cons, _, Depth) ->
    make(Module, definition(Module, Name), Cons, Depth);
make_of(Module, {'SEQUENCE', _, Table, _, Parts}, _, _, Depth) -> make_parts(Module, Table, Parts, Depth);
make_of(Module, {'SET', _, _, Table, Parts}, _, _, Depth) -> make_parts(Module, Table, Parts, Depth);
make_of(Module, {'CHOICE', Parts}, _, _, Depth) ->
    {Roots, Added} = sections(Parts),
    Light = [Part || Part <- Roots, Depth < 6 orelse not is_deep(Module, part_type(Part), [])],
    Part = pick(case Light of [] -> Roots; _ when Depth >= 6 -> Light; _ -> Roots ++ [P || P <- Added, is_part(P)] end),
    {element(3, Part), make(Module, part_type(Part), [], Depth + 1)};
make_of(Module, {Of, Type}, Cons, _, Depth) when Of =:= 'SEQUENCE OF'; Of =:= 'SET OF' ->
    Most = if Depth >= 6 -> 0; true -> 3 end,
    [make(Module, Type, [], Depth + 1) || _ <- lists:seq(1, make_size(Cons, Most))];
make_of(_, 'BOOLEAN', _, _, _) -> chance(0.5);
make_of(_, 'NULL', _, _, _) -> 'NULL';
make_of(_, 'INTEGER', Cons, _, _) -> make_integer(Cons);
make_of(_, {'INTEGER', Named}, Cons, _, _) ->
    case {Cons, chance(0.5)} of
        {[], true} -> element(2, pick(Named));
        _ -> make_integer(Cons)
    end;
make_of(_, {'ENUMERATED', Items}, Cons, _, _) ->
    All = case Items of {Roots, Added} -> Roots ++ Added; _ -> Items end,
    Allowed = [Name || {Name, _} <- All, lists:all(fun(One) -> one_fits(One, Name) =/= false end, Cons)],
    pick(Allowed);
make_of(_, {'BIT STRING', []}, Cons, _, _) ->
    << <<(rand:uniform(2) - 1):1>> || _ <- lists:seq(1, make_size(Cons, 12)) >>;
make_of(_, {'BIT STRING', Named}, _, _, _) -> [Name || {Name, _} <- Named, chance(0.5)];
make_of(Module, 'OCTET STRING', Cons, _, Depth) ->
    case lists:keyfind(contentsconstraint, 1, Cons) of
        {_, {type, _, {'Externaltypereference', _, Home, Name}, _, _, _} = Type, _} ->
            {ok, Octets} = Home:encode(Name, make(Module, Type, [], Depth + 1)),
            Octets;
        {_, Type, _} -> throw({left_out, {contents, Type}});
        false -> list_to_binary([rand:uniform(256) - 1 || _ <- lists:seq(1, make_size(Cons, 6))])
    end;
make_of(_, 'OBJECT IDENTIFIER', [{'SingleValue', Some} | _], _, _) ->
    pick(case Some of [_ | _] -> Some; _ -> [Some] end);
make_of(_, 'OBJECT IDENTIFIER', _, _, _) ->
    First = rand:uniform(3) - 1,
    Others = [pick([0, 127, 128, rand:uniform(70000)]) || _ <- lists:seq(1, rand:uniform(5) - 1)],
    list_to_tuple([First, rand:uniform(39) | Others]);
make_of(_, 'REAL', _, _, _) -> pick([{1, 2, 1}, {-5, 2, 3}]); % it can't encode 0
make_of(_, 'UTCTime', _, _, _) -> make_time(2);
make_of(_, 'GeneralizedTime', _, _, _) -> make_time(4);
make_of(Module, {'ObjectClassFieldType', _, _, _, {fixedtypevaluefield, _, Type}}, Cons, _, Depth) ->
    make(Module, Type, Cons, Depth);
make_of(_, {'ObjectClassFieldType', _, _, _, _}, _, _, _) -> open_octets();
make_of(_, Open, _, _, _) when Open =:= 'ASN1_OPEN_TYPE'; Open =:= 'ANY'; Open =:= 'ASN1_OPEN_TYPE_DEFINED_BY' ->
    open_octets();
make_of(_, {'ANY_DEFINED_BY', _}, _, _, _) -> open_octets();
make_of(_, Kind, Cons, _, _) when is_atom(Kind) ->
    Letters = case alphabet(Cons, letters(Kind)) of [] -> throw({left_out, {Kind, Cons}}); Some -> Some end,
    Text = [pick(Letters) || _ <- lists:seq(1, make_size(Cons, 8))],
    Chosen = case lists:keyfind('SingleValue', 1, Cons) of
        {_, [One | _] = Some1} when is_list(One) -> pick(Some1);
        {_, [Letter | _] = One1} when is_integer(Letter) -> One1;
        _ -> Text
    end,
    if Kind =:= 'UTF8String' -> unicode:characters_to_binary(Chosen); true -> Chosen end;
make_of(_, Def, _, _, _) -> throw({left_out, Def}).

open_octets() -> pick([<<5, 0>>, <<2, 1, 7>>, <<4, 2, 1, 2>>, <<48, 3, 1, 1, 255>>]).

%% Two digits of a number, and times as DER has them: in full, in UTC, without a fraction.
two(Number) -> io_lib:format("~2..0b", [Number]).
make_time(Year) ->
    Head = case Year of 2 -> two(rand:uniform(99)); 4 -> ["20", two(rand:uniform(99))] end,
    Clock = [two(rand:uniform(23)), two(rand:uniform(59)), two(rand:uniform(59)), "Z"],
    lists:flatten([Head, two(rand:uniform(12)), two(rand:uniform(28)), Clock]).

letters('NumericString') -> "0123456789 ";
letters('PrintableString') -> "ABCxyz019 '()+,-./:=?";
letters('UTF8String') -> [$a, $Z, 16#e9, 16#65e5, 16#1f600];
letters('BMPString') -> [$a, $Z, {0, 0, 16#65, 16#e5}];
letters('UniversalString') -> [$a, $Z, {0, 1, 16#f6, 0}];
letters(Kind) when Kind =:= 'IA5String'; Kind =:= 'VisibleString'; Kind =:= 'ISO646String'; Kind =:= 'GeneralString';
                   Kind =:= 'GraphicString'; Kind =:= 'TeletexString'; Kind =:= 'T61String'; Kind =:= 'VideotexString';
                   Kind =:= 'ObjectDescriptor' -> "azAZ09 ~!\"@_";
letters(Kind) -> throw({left_out, Kind}).

%% The letters that each alphabet of the constraints has; all that one lists where it is the only one.
alphabet(Cons, Default) ->
    case [Letters || {'PermittedAlphabet', Found} <- Cons, Letters <- [listed(Found)]] of
        [] -> Default;
        [First | Others] ->
            [Letter || Letter <- First, lists:all(fun(Other) -> lists:member(Letter, Other) end, Others)]
    end.
listed({'SingleValue', Letters}) when is_list(Letters) -> Letters;
listed({'SingleValue', Letter}) -> [Letter];
listed({'ValueRange', {Low, High}}) when is_list(Low) -> lists:seq(hd(Low), hd(High));
listed({{_, _} = Root, _}) -> listed(Root);
listed(Other) -> throw({left_out, {alphabet, Other}}).

%% ---- components

part_type(Part) -> element(4, Part).
is_part(Part) -> is_tuple(Part) andalso element(1, Part) =:= 'ComponentType'.

sections({First, Added, Second}) -> {First ++ Second, Added};
sections({Roots, Added}) -> {Roots, Added};
sections(Roots) -> {[Part || Part <- Roots, is_part(Part)], []}.

make_parts(Module, Table, Parts, Depth) ->
    {Roots, Added} = sections(Parts),
    Row = row(Table),
    Chosen = [Part || Part <- Roots, keep(Module, Part, Depth)] ++ additions(Module, Added, Depth),
    maps:from_list(lists:append([make_part(Module, Part, Row, Depth) || Part <- Chosen])).

%% One row of the object set that ties the components together, if there is one.
row({simpletableattributes, {Module, Set}, _, _, _, _, _}) ->
    {typedef, _, _, _, {'ObjectSet', _, _, _, Rows}} = asn1_db:dbget(Module, Set),
    element(3, pick([Row || Row <- Rows, is_tuple(Row)]));
row(_) -> none.

make_part(Module, Part, Row, Depth) ->
    {type, _, Def, Cons, Table, _} = Type = part_type(Part),
    Value = case {Row, lists:keyfind(simpletable, 1, Cons), Def} of
        {none, _, _} -> make(Module, Type, [], Depth + 1);
        {_, {simpletable, _}, _} -> row_value(Row, lists:keyfind(ocft, 1, Cons), Def);
        {_, _, {'ObjectClassFieldType', _, _, _, {typefield, Field}}} when Table =/= [] ->
            row_type(Module, Row, Field, Depth);
        _ -> make(Module, Type, [], Depth + 1)
    end,
    case element(5, Part) of
        {'DEFAULT', Value} -> [];
        _ -> [{element(3, Part), Value}]
    end.
row_value(Row, {ocft, {'ObjectClassFieldType', _, _, {Field, _}, _}}, _) -> field_value(lists:keyfind(Field, 1, Row));
row_value(Row, _, {'ObjectClassFieldType', _, _, {Field, _}, _}) -> field_value(lists:keyfind(Field, 1, Row)).
field_value({_, {valuedef, _, _, _, _, Value, _}}) -> Value;
field_value(Other) -> throw({left_out, {object, Other}}).
row_type(Module, Row, Field, Depth) ->
    case lists:keyfind(Field, 1, Row) of
        {_, {typedef, _, _, _, {type, _, _, _, _, _} = Type}} -> make(Module, Type, [], Depth + 1);
        {_, {'Externaltypereference', _, _, _} = Named} -> make(Module, {type, [], Named, [], [], no}, [], Depth + 1);
        Other -> throw({left_out, {object, Other}})
    end.

keep(Module, Part, Depth) ->
    case element(5, Part) of
        mandatory -> true;
        _ when Depth >= 6 -> false;
        _ when Depth >= 3 -> chance(0.5) andalso (chance(0.3) orelse not is_deep(Module, part_type(Part), []));
        _ -> chance(0.6)
    end.

%% The compiler takes a mandatory addition as mandatory in each value, so values of older versions can't be had from it.
additions(Module, Added, Depth) ->
    Groups = grouped([One || One <- Added, not is_tuple(One) orelse element(1, One) =/= 'EXTENSIONMARK'], []),
    [Part || Group <- Groups, Part <- Group, keep(Module, Part, Depth)].
grouped([], Done) -> lists:reverse(Done);
grouped([Head | Rest], Done) when is_tuple(Head), element(1, Head) =:= 'ExtensionAdditionGroup' ->
    {Group, [_ | After]} = lists:splitwith(fun(One) -> One =/= 'ExtensionAdditionGroupEnd' end, Rest),
    grouped(After, [Group | Done]);
grouped([Part | Rest], Done) -> grouped(Rest, [[Part] | Done]).

%% Whether a type leads to itself.
is_deep(_, {type, _, {'Externaltypereference', _, Module, Name}, _, _, _}, Seen) ->
    lists:member(Name, Seen) orelse is_deep(Module, definition(Module, Name), [Name | Seen]);
is_deep(Module, {type, _, {_, _, _, _, Parts}, _, _, _}, Seen) when is_list(Parts); is_tuple(Parts) ->
    any_deep(Module, Parts, Seen);
is_deep(Module, {type, _, {'CHOICE', Parts}, _, _, _}, Seen) -> any_deep(Module, Parts, Seen);
is_deep(Module, {type, _, {Of, Type}, _, _, _}, Seen) when Of =:= 'SEQUENCE OF'; Of =:= 'SET OF' ->
    is_deep(Module, Type, Seen);
is_deep(_, _, _) -> false.
any_deep(Module, Parts, Seen) when is_list(Parts); tuple_size(Parts) < 4 ->
    {Roots, Added} = sections(Parts),
    lists:any(fun(Part) -> is_part(Part) andalso is_deep(Module, part_type(Part), Seen) end, Roots ++ Added);
any_deep(_, _, _) -> false.

%% ---- constraints

make_size(Cons, Most) ->
    Ranges = [Range || {'SizeConstraint', Size} <- Cons, Range <- [ranges(Size)]],
    Free = [[{0, Most}]],
    {Low, High} = pick(case cut_all(Ranges, infinite) of
        infinite -> hd(Free);
        [] -> throw({left_out, {size, Cons}});
        Cut -> Cut
    end),
    pick([Low, min(High, Low + Most), Low + rand:uniform(min(High, Low + Most) - Low + 1) - 1] ++ [High || High < 40]).

make_integer(Cons) ->
    Ranges = [ranges(One) || One <- Cons, is_value(One)],
    case cut_all(Ranges, infinite) of
        infinite -> pick([0, 1, -1, 127, 128, -128, -129, 255, 256, rand:uniform(1 bsl 40), -rand:uniform(1 bsl 100)]);
        [] -> throw({left_out, {integer, Cons}});
        Cut -> {Low, High} = pick(Cut), between(Low, High)
    end.
between(min, max) -> between(-100, 100);
between(min, High) -> between(High - 1000, High);
between(Low, max) -> between(Low, Low + 1000);
between(Low, High) -> pick([Low, High, Low + rand:uniform(High - Low + 1) - 1]).

is_value({'ValueRange', _}) -> true;
is_value({'SingleValue', _}) -> true;
is_value({{Kind, _}, _}) when Kind =:= 'ValueRange'; Kind =:= 'SingleValue' -> true;
is_value(_) -> false.

%% A constraint on integers or sizes as ranges. What comes behind `...` counts as far as it is declared.
ranges({'ValueRange', {Low, High}}) -> [{bound(Low), bound(High)}];
ranges({'SingleValue', Values}) when is_list(Values) -> [{Value, Value} || Value <- Values];
ranges({'SingleValue', Value}) -> [{Value, Value}];
ranges({{Low, High}, More}) when is_integer(Low), is_list(More) ->
    [{Low, bound(High)} | lists:append([ranges(One) || One <- More])];
ranges({Root, More}) when is_tuple(Root), is_list(More) -> ranges(Root) ++ lists:append([ranges(One) || One <- More]);
ranges({Low, High}) -> [{bound(Low), bound(High)}];
ranges(Sizes) when is_list(Sizes) -> lists:append([ranges(One) || One <- Sizes]);
ranges(Size) when is_integer(Size) -> [{Size, Size}].
bound('MIN') -> min;
bound('MAX') -> max;
bound(Number) when is_integer(Number) -> Number;
bound(Other) -> throw({left_out, {bound, Other}}).

cut_all(Lists, Start) ->
    lists:foldl(fun(Ranges, infinite) -> Ranges; (Ranges, Cut) -> cut(Ranges, Cut) end, Start, Lists).
cut(Ones, Others) ->
    [{Low, High} || {A, B} <- Ones, {C, D} <- Others, Low <- [upper(A, C)], High <- [lower(B, D)],
                    Low =:= min orelse High =:= max orelse Low =< High].
upper(min, C) -> C;
upper(A, min) -> A;
upper(A, C) -> max(A, C).
lower(max, D) -> D;
lower(B, max) -> B;
lower(B, D) -> min(B, D).

%% Whether a decoded value meets the constraints of its type: true, false, or {unknown, Why}.
fits(_, {type, _, {'Externaltypereference', _, Module, Name}, Own, _, _}, More, Value) ->
    fits(Module, definition(Module, Name), Own ++ More, Value);
fits(Module, {type, _, Def, Own, _, _}, More, Value) ->
    worst([one_fits(One, plain(Def, Value)) || One <- Own ++ More] ++ parts_fit(Module, Def, Value)).

worst(Answers) ->
    case {lists:member(false, Answers), [Why || {unknown, Why} <- Answers]} of
        {true, _} -> false;
        {_, [Why | _]} -> {unknown, Why};
        _ -> true
    end.

plain({'INTEGER', Named}, Value) when is_atom(Value) -> element(2, lists:keyfind(Value, 1, Named));
plain('UTF8String', Value) -> unicode:characters_to_list(Value);
plain(_, Value) -> Value.

one_fits({'SizeConstraint', {{_, _}, More} = Size}, Value) when is_list(More) -> within(length_of(Value), ranges(Size));
one_fits({'SizeConstraint', Size}, Value) -> in(length_of(Value), ranges(Size));
one_fits({'PermittedAlphabet', Found}, Value) ->
    lists:all(fun(Letter) -> lists:member(Letter, listed(Found)) end, Value);
one_fits({'SingleValue', [One | _] = Values}, Value) when is_atom(Value); is_list(One) -> lists:member(Value, Values);
one_fits({'SingleValue', One}, Value) when not is_integer(Value) -> One =:= Value;
one_fits({{'SingleValue', _} = Root, _}, Value) when not is_integer(Value) -> one_fits(Root, Value);
one_fits({{_, _}, More} = One, Value) when is_integer(Value), is_list(More) -> within(Value, ranges(One));
one_fits(One, Value) when is_integer(Value) ->
    case is_value(One) of true -> in(Value, ranges(One)); false -> other_fits(One) end;
one_fits(One, _) -> other_fits(One).
other_fits({Kind, _}) when Kind =:= simpletable; Kind =:= ocft -> true;
other_fits({Kind, _, _}) when Kind =:= componentrelation -> true;
other_fits(One) -> {unknown, element(1, One)}.
length_of(Value) when is_binary(Value) -> byte_size(Value);
length_of(Value) when is_bitstring(Value) -> bit_size(Value);
length_of(Value) -> length(Value).
%% The compiler forgets what is declared behind the `...` of a constraint, so what isn't in the root can't be judged.
within(Number, Ranges) ->
    case in(Number, Ranges) of true -> true; false -> {unknown, additions} end.
in(Number, Ranges) ->
    lists:any(fun({Low, High}) ->
        (Low =:= min orelse Low =< Number) andalso (High =:= max orelse Number =< High)
    end, Ranges).

parts_fit(Module, {'SEQUENCE', _, _, _, Parts}, Value) -> named_fit(Module, Parts, Value);
parts_fit(Module, {'SET', _, _, _, Parts}, Value) -> named_fit(Module, Parts, Value);
parts_fit(Module, {'CHOICE', Parts}, {Name, Value}) ->
    {Roots, Added} = sections(Parts),
    [fits(Module, part_type(Part), [], Value) || Part <- Roots ++ Added, is_part(Part), element(3, Part) =:= Name];
parts_fit(Module, {Of, Type}, Values) when Of =:= 'SEQUENCE OF'; Of =:= 'SET OF' ->
    [fits(Module, Type, [], Value) || Value <- Values];
parts_fit(_, 'UTCTime', Value) -> [re:run(Value, "^[0-9]{12}Z$") =/= nomatch];
parts_fit(_, 'GeneralizedTime', Value) -> [re:run(Value, "^[0-9]{14}(\\.[0-9]*[1-9])?Z$") =/= nomatch];
parts_fit(_, Def, Value) when is_atom(Def), is_list(Value), Def =/= 'OCTET STRING' ->
    case lists:member(Def, ['NumericString', 'PrintableString', 'IA5String', 'VisibleString', 'ISO646String']) of
        true -> [lists:all(fun(Letter) -> in_alphabet(Def, Letter) end, Value)];
        false -> []
    end;
parts_fit(_, _, _) -> [].
named_fit(Module, Parts, Decoded) ->
    {Roots, Added} = sections(Parts),
    Value = maps:filter(fun is_there/2, Decoded),
    There = [Part || Part <- Roots ++ Added, is_part(Part), is_map_key(element(3, Part), Value)],
    [fits(Module, part_type(Part), [], maps:get(element(3, Part), Value)) || Part <- There] ++
    [is_map_key(element(3, Part), Value) || Part <- Roots, element(5, Part) =:= mandatory].
%% A mandatory addition that didn't come is decoded to this word.
is_there(_, Part) -> Part =/= asn1_NOVALUE.
in_alphabet('NumericString', Letter) -> Letter =:= $\s orelse Letter >= $0 andalso Letter =< $9;
in_alphabet('PrintableString', Letter) ->
    lists:member(Letter, " '()+,-./:=?") orelse re:run([Letter], "[A-Za-z0-9]") =/= nomatch;
in_alphabet('IA5String', Letter) -> Letter < 128;
in_alphabet(_, Letter) -> Letter >= 32 andalso Letter < 127.

%% ---- comparing

compare(Module, Type, Octets, Term, Encodes) ->
    case decoded(Module, Type, Octets) of
        {ok, Value} ->
            {ok, Again} = case Encodes of true -> Module:encode(Type, Value); false -> {ok, Octets} end,
            Fits = try
                fits(Module, definition(Module, Type), [], Value)
            catch
                throw:{left_out, Why} -> {unknown, Why}
            end,
            case {iolist_to_binary(Again) =:= Octets, normal(Value) =:= normal(Term), Fits} of
                {false, _, _} -> say("encoded again as ~s", [hex(Again)]);
                {_, false, _} -> say("other value ~0p not ~0p", [Value, Term]);
                {_, _, false} -> say("outside ~0p", [Value]);
                {_, _, {unknown, Why1}} -> say("unjudged ~0p", [Why1]);
                {_, _, true} -> say("ok", [])
            end;
        Wrong -> say("undecodable ~0p", [Wrong])
    end.

%% Values without what didn't come; strings as octets, which are lists of characters or octets by their kind.
normal(Value) when is_map(Value) -> maps:map(fun(_, Part) -> normal(Part) end, maps:filter(fun is_there/2, Value));
normal({Name, Value}) when is_atom(Name) -> {Name, normal(Value)};
normal([First | _] = Text) when is_integer(First) ->
    try list_to_binary(Text) catch error:badarg -> unicode:characters_to_binary(Text) end;
normal([]) -> <<>>;
normal(List) when is_list(List) -> [normal(Part) || Part <- List];
normal(Value) -> Value.

%% ---- ASN.1's notation of a value, whose type is one of the profile

notation(_, {type, _, {'Externaltypereference', _, Module, Name}, _, _, _}, Value) ->
    notation(Module, definition(Module, Name), Value);
notation(Module, {type, _, Def, _, _, _}, Value) -> written(Module, Def, Value).

written(Module, {Kind, _, _, _, Parts}, Value) when Kind =:= 'SEQUENCE'; Kind =:= 'SET' ->
    Ordered = lists:sort(fun(One, Other) -> element(7, One) =< element(7, Other) end, Parts),
    There = [{element(3, Part), part_type(Part)} || Part <- Ordered, is_map_key(element(3, Part), Value)],
    Written = [[atom_to_list(Name), " ", notation(Module, Type, maps:get(Name, Value))] || {Name, Type} <- There],
    ["{", lists:join(", ", Written), "}"];
written(Module, {'CHOICE', Parts}, {Name, Value}) ->
    [Type] = [part_type(Part) || Part <- Parts, element(3, Part) =:= Name],
    [atom_to_list(Name), " : ", notation(Module, Type, Value)];
written(Module, {Of, Type}, Values) when Of =:= 'SEQUENCE OF'; Of =:= 'SET OF' ->
    ["{", lists:join(", ", [notation(Module, Type, Value) || Value <- Values]), "}"];
written(_, 'BOOLEAN', Value) -> string:uppercase(atom_to_list(Value));
written(_, {'BIT STRING', _}, Names) when is_list(Names) ->
    ["{", lists:join(", ", [atom_to_list(Name) || Name <- Names]), "}"];
written(_, {'BIT STRING', _}, Bits) -> ["'", [$0 + Bit || <<Bit:1>> <= Bits], "'B"];
written(_, 'OCTET STRING', Octets) -> ["'", binary_to_list(hex(Octets)), "'H"];
written(_, 'OBJECT IDENTIFIER', Arcs) ->
    ["{", lists:join(" ", [integer_to_list(Arc) || Arc <- tuple_to_list(Arcs)]), "}"];
written(_, _, Value) when is_integer(Value) -> integer_to_list(Value);
written(_, _, Value) when is_atom(Value) -> atom_to_list(Value);
written(_, 'UTF8String', Value) -> quoted(unicode:characters_to_list(Value));
written(_, _, Value) -> quoted(Value).

quoted(Text) -> ["\"", [case Letter of $" -> "\"\""; _ -> Letter end || Letter <- Text], "\""].
