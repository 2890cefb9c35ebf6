//! Errors of the parser: their line, their column and what they say.

use notation::parse;

/// The text is refused at the place marked with `@`, with a message that holds the words.
fn refused(marked: &str, words: &str) {
    let at = marked.find('@').expect("a mark");
    let before = &marked[..at];
    let text = marked.replacen('@', "", 1);
    let line = before.matches('\n').count() + 1;
    let column = before.chars().rev().take_while(|&c| c != '\n').count() + 1;
    match parse(&text) {
        Ok(file) => panic!("accepted: {file:?}\n{text}"),
        Err(fault) => {
            let place = (fault.line, fault.column);
            assert_eq!(place, (line, column), "{fault}\n{text}");
            assert!(fault.message.contains(words), "{fault}\n{text}");
            assert_eq!(
                fault.to_string(),
                format!("line {line}, column {column}: {}", fault.message)
            );
        }
    }
}

#[test]
fn characters() {
    refused("F == x @§ y", "the character `§`");
    refused(
        "\\* é is fine here\n(* ü *) F == x @{ y",
        "not in this notation",
    );
    refused("F == x @- y", "by its code");
    refused("F == x @=> y", "`=>` is not in this notation");
    refused("F == x @\\cup y", "`\\cup` is not in this notation");
    refused("F == x @< y", "`>`");
    refused("F == @~x", "not in this notation");
    refused("F @=== x", "`===`");
    refused("F == [x@] y", "`[A]_v`");
    refused("F == <<x@>> y", "`<<A>>_v`");
    refused("F == @2x", "cannot begin with a digit");
    refused("F == @__", "a name has a letter");
    refused("F == @?q1", "`?p3`");
    refused("F == @?é", "`?p3`");
    refused("F == @?p", "`?p3`");
    refused("F == x\n  @(* never (* closed *) ", "never closed");
}

#[test]
fn fields() {
    refused("---- MODULE @----", "the name of a module, found `----`");
    refused("---- MODULE A @F == x", "expected `----` after the name");
    refused("---- MODULE @LET ----", "reserved word");
    refused("@MODULE A", "`---- MODULE Name ----`");
    refused("EXTENDS A,\n@(x)", "the name of a module, found `(`");
    refused(
        "CONSTANT @",
        "the name of a constant, found the end of the text",
    );
    refused("CONSTANT K(_, @x)", "`_` for each argument");
    refused("CONSTANT K(_, _@", "after the arguments of the constant");
    refused("CONSTANT K(@)", "`_` for each argument");
    refused("VARIABLE x,@", "the name of a variable");
    refused("VARIABLE x y@", "expected `==` to define `y`");
    refused("F(@_) == 1", "needs a name");
    refused("F(a@(b)) == 1", "operators as arguments are left out");
    refused("F(a, b @== 1", "after the parameters");
    refused("F == x G@", "to go on with the expression there");
    refused("ASSUME x @NAMES", "only at the top");
    refused(
        "ASSUME @",
        "expected an expression, found the end of the text",
    );
    refused(
        "@LOCAL F == x",
        "a word of TLA+ that this notation leaves out",
    );
    refused("@ENABLED x", "cannot begin a field");
    refused("F == x @) ", "expected a field");
    refused("F == x\n@3", "expected a field");
    refused("@/\\ x", "leading `/\\`");
    let many: Vec<String> = (0..256).map(|p| format!("q{p}")).collect();
    let many = many.join(", ");
    refused(&format!("@F({many}) == 1"), "at most 255 parameters");
    refused(&format!("F == G@({many})"), "at most 255 arguments");
    refused(
        &format!("CONSTANT F({}@_)", "_, ".repeat(255)),
        "at most 255",
    );
    let long = "1 + ".repeat(20_000);
    refused(
        &format!("VARIABLE x\n  @F == {long}1"),
        "a field holds at most 65535",
    );
}

#[test]
fn header() {
    refused("NAMES MODULES A = @0", "1 to 65535");
    refused("NAMES MODULES A = @65536", "1 to 65535");
    refused("NAMES MODULES A @3", "expected `=`");
    refused("NAMES MODULES A = 3, @A = 4", "already in the header");
    refused("NAMES OPERATORS a = 3, b = @3", "another name");
    refused("NAMES OPERATORS @n4 = 3", "always has the number in it");
    refused(
        "NAMES OPERATORS a = 3\nVARIABLE a, @b",
        "no number in the NAMES header",
    );
    refused(
        "NAMES\n---- MODULE @A ----",
        "no number in the NAMES header",
    );
    refused("NAMES\nVARIABLE @n0", "no number in the NAMES header");
    refused("NAMES\nVARIABLE @n65536", "no number in the NAMES header");
    refused("NAMES\nn4(@n3) == n3", "stands for the name of that number");
}

#[test]
fn expressions() {
    refused("F == @/\\ x /\\ y", "leading `/\\`");
    refused(
        "F == x /\\ @",
        "expected an expression, found the end of the text",
    );
    refused("F == x + @= y", "expected an expression, found `=`");
    refused("F == x /\\ y @\\/ z", "`/\\` and `\\/` have no order");
    refused("F == x = y @= z", "`=` and `=` have no order");
    refused("F == x = y + 1 @# z", "`=` and `#` have no order");
    refused("F == x ~> y @-+-> z", "`~>` and `-+->` have no order");
    refused("F == []x @= y", "`[]` and `=` have no order");
    refused("F == ENABLED x' @> y", "`ENABLED` and `>` have no order");
    refused("F == UNCHANGED x @+ y", "`UNCHANGED` and `+`");
    refused("F == x = @[]y", "put parentheses around");
    refused("F == x + @\\E y : y", "put parentheses around");
    refused("F == x > @ENABLED y", "put parentheses around");
    refused("F == [A]_v@'", "`([A]_v)'` or `[A]_(v')`");
    refused("F == [A]_(v)@'", "`([A]_v)'` or `[A]_(v')`");
    refused("F == [][A]_v @= x", "put parentheses");
    refused(
        "F == (x + y\n@G == z",
        "expected `)` to close the `(` of line 1, column 6",
    );
    refused("F == G(x, y@", "to close the `(` of line 1, column 7");
    refused("F == G(@)", "expected an expression");
    refused(
        "F == [x @: y",
        "expected `]_` to close the `[` of line 1, column 6",
    );
    refused("F == [x]_@[", "expected a subscript");
    refused("F == [x]_v@(y)", "put parentheses around the subscript");
    refused("F == [x]_I@!v", "put parentheses around the subscript");
    refused("F == WF_v @x", "expected `(` and the action");
    refused("F == WF_@= x", "expected a subscript");
    refused("F == I!@3", "after `!`");
    refused("F == I!J@!K", "at most one `!`");
    refused("F == I(1)!J@!K", "at most one `!`");
    refused("F == @65536", "a literal is 0 to 65535");
    refused("F == @99999999999999999999", "a literal is 0 to 65535");
    refused("F == @?p256", "0 to 255");
    refused("F == @?b65536", "0 to 65535");
    refused("F == @IF x THEN y ELSE z", "leaves out");
    refused("F == x + @INSTANCE M", "directly after `==`");
}

#[test]
fn built_ins() {
    refused("F == @op104(x)", "no built-in has the code 104");
    refused("F == @op256", "no built-in has the code 256");
    refused("F == op16 @x", "expected `(` and 1 argument of `op16`");
    refused("F == op16@(x, y)", "takes 1 argument, not 2");
    refused("F == op60@(x)", "takes 2 arguments, not 1");
    refused("F == op3@(x)", "takes no arguments");
    refused("F == @op128(x)", "`bind128 x : e`");
    refused("F == @bind48 x : y", "not a binder");
    refused("F == @bind142 x : y", "no built-in has the code 142");
    refused("F == bind128 x @\\in S : y", "binds without a set");
    refused("F == \\EE x @\\in S : y", "binds without a set");
    refused("F == bind132 x @: y", "binds over a set");
    refused("F == \\E x@, y : x", "binds one variable");
    refused("F == \\E @: x", "the name of a bound variable");
    refused("F == \\E x @y", "expected `:`");
    refused("F == \\E x \\in S @y", "expected `:`");
}

#[test]
fn local_names() {
    refused(
        "F(a, @a) == a",
        "already has a meaning here (line 1, column 3)",
    );
    refused(
        "F(a) == \\E @a : a",
        "already has a meaning here (line 1, column 3)",
    );
    refused("F == \\E a : \\A @a : a", "already has a meaning here");
    refused(
        "F == \\E @a \\in a : a",
        "already an operator in this field",
    );
    refused(
        "F(@F) == F",
        "already an operator in this field (line 1, column 1)",
    );
    refused("F == (\\E a : a) /\\ @a", "outside its scope");
    refused(
        "VARIABLE x\nF == \\E @x : x",
        "already declared or defined in this module (line 1, column 10)",
    );
    refused("F == 1\nG(@F) == F", "already declared or defined");
    refused("F(a) == a@(1)", "takes no arguments");
    refused("F(a) == a@!b", "not an instance");
    refused("F(a) == I!@a", "not an operator");
    assert!(parse("F == (\\E a : a) /\\ (\\A a : a)").is_ok());
    assert!(parse("---- MODULE A ---- VARIABLE x ==== ---- MODULE B ---- F(x) == x ====").is_ok());
}

#[test]
fn substitutions() {
    let module = "---- MODULE N ----\nCONSTANT c, K(_, _)\n====\n";
    let wrong = [
        (
            "INSTANCE N WITH @K <- c",
            "takes 2 arguments, but 0 are named here",
        ),
        (
            "INSTANCE N WITH @K(a) <- a",
            "takes 2 arguments, but 1 are named here",
        ),
        (
            "INSTANCE N WITH c <- 1, @c(a) <- a",
            "takes no arguments, but 1 are named here",
        ),
        ("INSTANCE N WITH @D(a) <- a", "`D` is not declared in `N`"),
        (
            "INSTANCE M WITH @K(a) <- a",
            "no module `M` ended before this",
        ),
        ("INSTANCE N WITH K(a, b) @== a", "expected `<-`"),
        ("INSTANCE N WITH @3 <- a", "the name to be replaced"),
        ("INSTANCE @WITH c <- a", "reserved word"),
        ("INSTANCE N WITH K(a, b) <- a, c <- @a", "outside its scope"),
        (
            "I(a) == INSTANCE N WITH K(@a, b) <- a",
            "already has a meaning",
        ),
    ];
    for (text, words) in wrong {
        refused(&format!("{module}{text}"), words);
    }
    let lawful = [
        "I(c) == INSTANCE N WITH c <- c",
        "INSTANCE N WITH K(a, b) <- a + b",
        "INSTANCE N WITH D <- 1",
        "INSTANCE M WITH K <- ?p1",
    ];
    for text in lawful {
        assert!(parse(&format!("{module}{text}")).is_ok(), "{text}");
    }
}
