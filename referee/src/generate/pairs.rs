//! Decks out of two things that meet: statements and places, two declarations
//! of one name, two errors in one statement.

use super::damage::damage_tokens;
use super::programs::Bodies;
use super::random::Random;

/// Where a statement may stand or not; `~` is the statement.
const STANDS: &[&[u8]] = &[
    b"%~",
    b"%IF 1 %THEN %~",
    b"%IF 0 %THEN %; %ELSE %~",
    b"%IF 0 %THEN %~ %ELSE %~",
    b"%DO;%~%END;",
    b"%L:DO;t%~t%END L;",
    b"%DO I=1 TO 1;%~%END;",
    b"%P:PROC RETURNS(CHAR);~RETURN(1);%END;%ACT P;P",
    b"%P:PROC RETURNS(CHAR);IF 1 THEN ~ELSE ~RETURN(1);%END;%ACT P;P",
    b"%P:PROC RETURNS(CHAR);DO;~END;RETURN(1);%END;%ACT P;P",
    b"%P:PROC RETURNS(CHAR);DO I=1 TO 1;L:~M:END;RETURN(1);%END;%ACT P;P",
    b"%P:PROC RETURNS(CHAR);RETURN(1);%~",
    b"%P:PROC RETURNS(CHAR);%~",
    b"%L:~",
    b"%L: M:~",
    b"%IF 1 %~",
    b"%IF 1 ~",
    b"%IF 1 %THEN ~",
    b"t ~",
    b"%~ %~ t",
    b"%DO;%DO;%~%END;%~%END;",
];

const STATEMENTS: &[&[u8]] = &[
    b";",
    b"X=1;",
    b"IF 1 %THEN %;",
    b"IF 1 THEN;",
    b"IF X %THEN %X=2; %ELSE %X=3;",
    b"DO;%END;",
    b"DO;END;",
    b"DO I=1;%END;",
    b"DO I=1 TO 2;END;",
    b"DO I=2 BY -1 TO 1;%END;",
    b"GOTO L;",
    b"GO TO L;",
    b"INCLUDE A;",
    b"INCLUDE A,A;",
    b"ACT X;",
    b"ACTIVATE X NORESCAN,X RESCAN;",
    b"DEACT X;",
    b"DCL Y FIXED;",
    b"DCL Y ENTRY;",
    b"DCL Y BUILTIN;",
    b"DCL(Y,Z)CHAR,V FIXED;",
    b"Q:PROC RETURNS(CHAR);RETURN(2);%END;",
    b"PROC RETURNS(CHAR);RETURN(2);%END;",
    b"RETURN(1);",
    b"RETURN(X)+1;",
    b"END;",
    b"END L;",
    b"END P;",
    b"END:;",
    b"END=1;",
    b"ELSE %;",
    b"ELSE;",
    b"ELSE=1;",
    b"ELSE:;",
    b"THEN %;",
    b"THEN;",
    b"THEN=1;",
    b"%;",
    b"X;",
    b"X Y;",
    b"X(1)=2;",
    b"1;",
    b"'A';",
    b"(X)=1;",
    b"K:X=1;",
    b"IF=1;",
    b"DO=1;",
    b"GO=1;",
    b"TO=1;",
    b"GO TO=1;",
    b"DCL Y,Z FIXED;",
    b"DCL (Y) (Z) FIXED;",
    b"X=1",
    b"X=(1;",
    b"X=SUBSTR();",
    b"X=1 2;",
    b"X=^=1;",
    b"X=12A;",
    b"X='1'BX;",
    b"X='12'B;",
    b"IF'1'B %THEN %;",
    b"IF(1)%THEN%;",
    b"DO I=1TO 2;%END;",
    b"DO I='1'TO 2;%END;",
    b"X=1| |1;",
    b"X=1||1;",
    b"X=1 > =1;",
    b"X=/*;",
    b"X='A;",
    b"X=1<=2^>3;",
    b"",
    b"X",
    b"X=",
    b"IF",
    b"IF 1",
    b"DO",
    b"DCL",
    b"GO",
    b"P:",
    b":;",
];

const DECLARED: &[u8] = b"%DCL (X,I,END,ELSE,THEN,IF,DO,GO,TO) FIXED;%X=1;";

/// A statement somewhere, right or wrong.
pub fn misplaced(random: &mut Random) -> Bodies {
    let mut body = Vec::new();
    if random.percent(60) {
        body.extend_from_slice(DECLARED);
    }
    fill(random, random_word(STANDS), STATEMENTS, &mut body);
    if random.percent(50) {
        body.extend_from_slice(random.word(&[b"t", b"%L:;", b"%;", b" ", b"X", b"%END;"]));
    }
    if random.percent(25) {
        body = damage_tokens(random, &body);
    }
    with_member(body, b"m%;X".to_vec())
}

/// A pick to be made once the generator is at hand.
fn random_word(words: &'static [&'static [u8]]) -> impl Fn(&mut Random) -> &'static [u8] {
    move |random| random.word(words)
}

/// Writes a frame with each `~` replaced by some filling.
fn fill(
    random: &mut Random,
    frame: impl Fn(&mut Random) -> &'static [u8],
    fillings: &'static [&'static [u8]],
    body: &mut Vec<u8>,
) {
    for byte in frame(random) {
        match byte {
            b'~' => body.extend_from_slice(random.word(fillings)),
            byte => body.push(*byte),
        }
    }
}

fn with_member(main: Vec<u8>, member: Vec<u8>) -> Bodies {
    Bodies {
        names: vec![b"MAIN".to_vec(), b"A".to_vec()],
        bodies: vec![main, member],
        ..Bodies::default()
    }
}

/// Declarations of X, and of others that don't clash.
const DECLARATIONS: &[&[u8]] = &[
    b"%DCL X CHAR;",
    b"%DCL (Z1,X) FIXED;",
    b"%DCL X ENTRY;",
    b"%DCL X ENTRY;",
    b"%X:PROC RETURNS(CHAR);RETURN(1);%END X;",
    b"%X:PROC RETURNS(CHAR);RETURN(1);%END;",
    b"%Z2:X:PROC(B)RETURNS(CHAR);DCL B CHAR;RETURN(B);%END;",
    b"%X:;",
    b"%Z3:X:IF 0 %THEN %;",
    b"%DO;%X:END;",
    b"%IF 0 %THEN %X:;",
    b"%X:DCL Z4 FIXED;",
    b"%DO;%DCL X CHAR;%END;",
    b"%Z5:PROC RETURNS(CHAR);DCL X CHAR;X=2;RETURN(X);%END;",
    b"%Z6:PROC(X)RETURNS(CHAR);DCL X CHAR;RETURN(X);%END;",
    b"%Z7:PROC(X)RETURNS(CHAR);X:RETURN(1);%END;",
    b"%Z8:PROC(X,X)RETURNS(CHAR);DCL X CHAR;RETURN(1);%END;",
    b"%Z9:PROC RETURNS(CHAR);X:;DCL X BUILTIN;RETURN(1);%END;",
    b"%Y1:PROC RETURNS(CHAR);RETURN(1);%X:END;",
    b"%Y2:PROC(X)RETURNS(CHAR);DCL X BUILTIN;RETURN(1);%END;",
    b"%Y3:PROC RETURNS(CHAR);DCL SUBSTR BUILTIN;RETURN(SUBSTR(X,1));%END;",
];

/// Two or three declarations of one name, in one member or two.
pub fn declared_twice(random: &mut Random) -> Bodies {
    let (mut main, mut member) = (Vec::new(), Vec::new());
    let included = random.percent(50);
    let place = random.below(3);
    for number in 0..random.between(1, 3) {
        if included && number == place {
            main.extend_from_slice(b"%INCLUDE A;");
        }
        let body = if included && random.percent(50) {
            &mut member
        } else {
            &mut main
        };
        body.extend_from_slice(random.word(DECLARATIONS));
    }
    const USES: &[&[u8]] = &[
        b"X",
        b"X(1)",
        b"%ACT X;X",
        b"%X=5;X",
        b"%GOTO X;",
        b"%DCL R CHAR;%R=X;R",
        b"%DCL R CHAR;%R=X(1);R",
        b"%INCLUDE A;",
        b"%ACT Z5,Z6;Z5 Z6(1)",
        b"%ACT Z7;Z7(1)",
        b"%ACT Y2;Y2(1)",
        b"%DCL R CHAR;%R=Z7(1);",
        b"%DCL Y3 ENTRY;Y3",
        b"%DEACT X;X",
    ];
    if included && random.percent(60) {
        main.extend_from_slice(b"%INCLUDE A;");
    }
    main.extend_from_slice(random.word(USES));
    with_member(main, member)
}

/// Operands that are refused, each with another number, and some that aren't.
const OPERANDS: &[&[u8]] = &[
    b"1/0",
    b"NOTHERE",
    b"U",
    b"'X'",
    b"'X'",
    b"('X'+0)",
    b"100000",
    b"SUBSTR('A',3)",
    b"P(1,2)",
    b"SUBSTR",
    b"E",
    b"E(1)",
    b"L",
    b"V(1)",
    b"P(1/0)",
    b"NOTHERE(1/0)",
    b"Q",
    b"P(U)",
    b"P(P(1))",
    b"D(1)",
    b"'-'",
    b"'+ '",
    b"1",
    b"V",
    b"'1'",
    b"'11'B",
    b"'011'B",
    b"'0'B",
    b"'100'B",
    b"''B",
    b"'100000'",
    b"'11111111111111111'B",
    b"F",
    b"P(1)",
    b"''",
    b"(2)",
    b"SUBSTR('123',2)",
    b"-1",
    b"'1 '",
];

/// Statements with several operands; `~` is an operand.
const FRAMES: &[&[u8]] = &[
    b"%R=~+~;R",
    b"%R=~||~||~;R",
    b"%R=(~=~)&~;R",
    b"%F=~*~-~;F",
    b"%NOTHERE=~;",
    b"%U=~/~;U",
    b"%L=~;",
    b"%DO I=~ TO ~;%END;I",
    b"%DO I=~ BY ~ TO ~;%IF I>3 %THEN %GOTO K;%END;%K:;I",
    b"%DO I=~ TO ~ BY ~;%IF I>3 %THEN %GOTO K;%END;%K:;I",
    b"%DO V=~ TO ~;%END;",
    b"%DO NOTHERE=~;%END;",
    b"%IF ~>~ %THEN %R=~;%ELSE %R=~;R",
    b"%R=SUBSTR(~,~,~);R",
    b"%R=SUBSTR(~,~);R",
    b"%R=T(~,~,~);R",
    b"%R=T(~,~);R",
    b"%R=T(~,T(~,~,~),~);R",
    b"%R=E(~);",
    b"%R=V(~);",
    b"%R=D(~);",
    b"T(~,~,~)",
    b"T (~,T(~,~,~),~)",
    b"T(~,~",
    b"T(~,~)",
    b"D(~)E(~)",
    b"U(~)F(~)",
    b"%ACT NOTHERE,~;",
    b"%R=-~;%R=^~;R",
    b"%R=(~||~)=~;R",
    b"%R=(~=~)||(~<~)||(~^>~);R",
    b"%R=('10'B<=~)||(~^<'110'B)||(~>'01'B);R",
    b"%R=~*~;R",
    b"%R=~&~;R",
    b"%R=('1'B||~)='1'B;R",
    b"%R=(''B||~)=('11'B||~);R",
    b"%R=SUBSTR('1'B||~,1)=SUBSTR('10'B,1);R",
    b"%R=(SUBSTR(~||~,1)=~)||(~=~);R",
    b"%I=2;%DO I=~ TO I+1;i%END;I",
    b"%I=2;%DO I=3 BY I TO I+~;i%END;I",
    b"%R=~|~&~=~||~+~*-~;R",
];

const PROCEDURES: &[u8] = b"%DCL (R,V,U) CHAR,(I,F) FIXED,(P,E,T,D,Q) ENTRY;%V='7';%F=3;\
%P:PROC(A)RETURNS(FIXED);DCL A FIXED;RETURN(A+1);%END;\
%T:PROC(A,B,C)RETURNS(CHAR);DCL (A,C)FIXED,B CHAR;RETURN(A||B||C);%END;\
%D:PROC(A)RETURNS(CHAR);RETURN(1);%END;\
%Q:PROC RETURNS(CHAR);DCL Z CHAR;Z=R;R=Q;RETURN(1);%END;%L:;%R='';";

/// Several errors in one statement, of which one is met first.
pub fn several_errors(random: &mut Random) -> Bodies {
    let mut body = PROCEDURES.to_vec();
    fill(random, random_word(FRAMES), OPERANDS, &mut body);
    with_member(body, Vec::new())
}
