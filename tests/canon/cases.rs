//! Written cases for `canon`: texts, what is lent, and what is to come of them by
//! the rules. They lie on either side of every limit.

use super::ROOM;
use crate::written::Text::{self, Body, CanonicalBody, Once, Pieces};
use crate::written::{at_mark, CANONICAL_EXAMPLE, EXAMPLE, EXAMPLE_LIST, OPERATIONS};

pub struct Case {
    pub list: Text,
    pub document: Text,
    /// The lent lengths: two work areas, the output.
    pub room: [usize; 3],
    /// Code, text, position, detail; the text and the position where there is no
    /// mark, the detail where the canonical text is not sized.
    answer: [u32; 4],
    canonical: Option<Text>,
    /// The tokens of the canonical text, where it is sized.
    pub tokens: Option<usize>,
}

impl Case {
    pub fn answer(&self) -> [u32; 4] {
        match (self.canonical, self.tokens) {
            (Some(text), None) => [0, 0, 0, text.bytes().len() as u32],
            _ => at_mark(self.answer, self.list, self.document),
        }
    }

    /// The bytes that are to be written.
    pub fn canonical(&self) -> Vec<u8> {
        self.canonical.map(Text::bytes).unwrap_or_default()
    }
}

/// A pair that is refused at the mark, or at no place.
const fn refused(code: u32, list: Text, document: Text) -> Case {
    Case {
        list,
        document,
        room: ROOM,
        answer: [code, 0, 0, 0],
        canonical: None,
        tokens: None,
    }
}

/// A document under a list, with its canonical text.
const fn under(list: Text, document: Text, canonical: Text) -> Case {
    Case {
        canonical: Some(canonical),
        ..refused(0, list, document)
    }
}

/// A document under `OPERATIONS`, with its canonical text.
const fn writes(document: Text, canonical: Text) -> Case {
    under(OPERATIONS, document, canonical)
}

/// The same case with the bytes and tokens of the canonical text.
const fn sized(bytes: u32, tokens: usize, case: Case) -> Case {
    Case {
        answer: [0, 0, 0, bytes],
        tokens: Some(tokens),
        ..case
    }
}

/// The worked example, lent this room.
const fn example(room: [usize; 3]) -> Case {
    let case = under(EXAMPLE_LIST, EXAMPLE, CANONICAL_EXAMPLE);
    lent(room, sized(88, 39, case))
}

/// A pair of which this text is too long.
const fn long(text: u32, list: Text, document: Text) -> Case {
    Case {
        answer: [2, text, 16_384, 0],
        ..refused(2, list, document)
    }
}

/// A call at the mark that leaves a parameter unbound, the first one at this index.
const fn unbound(index: u32, document: Text) -> Case {
    Case {
        answer: [19, 0, 0, index],
        ..refused(19, OPERATIONS, document)
    }
}

/// The worked example, lent this room, of which the output is too short.
const fn short(room: [usize; 3]) -> Case {
    let case = Case {
        answer: [26, 0, 0, 88],
        ..refused(26, EXAMPLE_LIST, EXAMPLE)
    };
    lent(room, case)
}

/// The same case with other lengths lent.
const fn lent(room: [usize; 3], case: Case) -> Case {
    Case { room, ..case }
}

/// The examples of the repository.
const EXAMPLES_LIST: Text = Once(include_str!("../../examples/declarations.nnef"));
const CANDIDATES: Text = Once(include_str!("../../examples/candidates.nnef"));
const CANDIDATES_RESPELT: Text = Once(include_str!("../../examples/candidates_respelt.nnef"));
const CANDIDATES_CANONICAL: Text = Once(include_str!("../../examples/candidates.canonical"));
const NEIGHBOURS: Text = Once(include_str!("../../examples/neighbours.nnef"));
const NEIGHBOURS_RESPELT: Text = Once(include_str!("../../examples/neighbours_respelt.nnef"));
const NEIGHBOURS_CANONICAL: Text = Once(include_str!("../../examples/neighbours.canonical"));

/// The list and the documents of the source's example.
const SOURCE_LIST: Text = Once(
    "fragment foo( input: tensor, size: extent[] = [1] ) -> ( output: tensor ) \
     fragment bar( input: tensor, alpha: scalar = 0.5 ) -> ( output: tensor, extra: tensor ) \
     fragment external( shape: extent[] ) -> ( output: tensor )",
);
const SOURCE: Text = Once(
    "version 1.0\ngraph barfoo( input ) -> ( output )\n{\n    input = external(shape = [1,10])\n    \
     intermediate, extra = bar(input, alpha = 2)\n    output = foo(intermediate, size = [3,5])\n}\n",
);
const SOURCE_CANONICAL: Text = Once(
    "version 1.0\ngraph barfoo(input)->(output)\n{\ninput=external(shape=[1,10]);\n\
     intermediate,extra=bar(input=input,alpha=2e0);\noutput=foo(input=intermediate,size=[3,5]);\n}\n",
);

/// Defaults in many spellings.
const DEFAULTS: Text = Once(
    "fragment external(shape: extent[]) -> (output: tensor) \
     fragment f(a: scalar = 0.50, b: tensor = 02, c: extent = 007, d: string = \"it's\", e: string = \"'\", \
     g: string = \"\", h: logical[][] = [[], [true, false]], i: (tensor, (extent, scalar[])) = (true, (00, [1e2, 3])), \
     j: tensor[] = []) -> (y: tensor)",
);

/// Defaults with signs.
const SHIFTS: Text = Once(
    "fragment external(shape: extent[]) -> (output: tensor) \
     fragment shift(x: tensor, step: extent = -1) -> (y: tensor) \
     fragment shifts(x: tensor = - # c\n1.50, steps: extent[] = [-1, 2, -0], at: (extent, (scalar, tensor[]))[] = \
     [(-0, (-0.0, [-0e5, - 20])), (-2147483648, (- 2147483648, []))]) -> (y: tensor)",
);

/// An operation of which 31 parameters have a default.
const WIDE: Text = Pieces(&[
    (
        "fragment external(shape: extent[]) -> (output: tensor) fragment wide(x: tensor",
        1,
    ),
    (", p%: extent = 00%", 31),
    (") -> (y: tensor)", 1),
]);

/// An operation for deep values and left sides.
const DEEP: Text = Once(
    "fragment external(shape: extent[]) -> (output: tensor) \
     fragment deep(x: tensor[][][][][][][][], y: scalar[][][][][][][][] = [[[[[[[[1]]]]]]]]) \
     -> (y0: tensor[][][][][][][][], z: tensor)",
);

/// The canonical text of a call that leaves nothing to defaults.
const SCALED: Text = CanonicalBody("z=scale(x=a,by=5e-1);");

#[rustfmt::skip]
pub const CASES: &[Case] = &[
    // The worked example, and its canonical text again.
    example(ROOM),
    under(EXAMPLE_LIST, CANONICAL_EXAMPLE, CANONICAL_EXAMPLE),
    under(SOURCE_LIST, SOURCE, SOURCE_CANONICAL),
    under(SOURCE_LIST, SOURCE_CANONICAL, SOURCE_CANONICAL),
    under(EXAMPLES_LIST, CANDIDATES, CANDIDATES_CANONICAL),
    under(EXAMPLES_LIST, CANDIDATES_RESPELT, CANDIDATES_CANONICAL),
    under(EXAMPLES_LIST, CANDIDATES_CANONICAL, CANDIDATES_CANONICAL),
    under(EXAMPLES_LIST, NEIGHBOURS, NEIGHBOURS_CANONICAL),
    under(EXAMPLES_LIST, NEIGHBOURS_RESPELT, NEIGHBOURS_CANONICAL),
    under(EXAMPLES_LIST, NEIGHBOURS_CANONICAL, NEIGHBOURS_CANONICAL),
    // Spacing, comments and semicolons are no part of a plan.
    writes(Body("z=scale(x=a,by=5e-1)"), SCALED),
    writes(Body("z=scale(x=a,by=5e-1);"), SCALED),
    writes(Body("\t z\r\n=\x0b\x0cscale ( x = a , by = 5e-1 ) ;# the end\n"), SCALED),
    writes(Once("#\nversion#\n1.0#\ngraph#\ng#(\n(#)\na)->#\n(z)#\n{#\na=external(shape=[1])z=scale(a,by=0.5);#\n}#\n#"), SCALED),
    // Positional, named in any order.
    writes(Body("z=scale(a,by=5e-1)"), SCALED),
    writes(Body("z=scale(by=5e-1,x=a)"), SCALED),
    writes(Body("z=both(a,1)"), CanonicalBody("z=both(x=a,y=1e0);")),
    writes(Body("z=both(y=1,x=a)"), CanonicalBody("z=both(x=a,y=1e0);")),
    // A number at scalar or tensor is reduced.
    writes(Body("z=scale(a,by=0.5)"), SCALED),
    writes(Body("z=scale(a,by=50e-2)"), SCALED),
    writes(Body("z=scale(a,by=000.000005E+0005)"), SCALED),
    writes(Body("z=scale(a,by=2)"), CanonicalBody("z=scale(x=a,by=2e0);")),
    writes(Body("z=scale(a,by=2.0)"), CanonicalBody("z=scale(x=a,by=2e0);")),
    writes(Body("z=scale(a,by=2e0)"), CanonicalBody("z=scale(x=a,by=2e0);")),
    writes(Body("z=scale(a,by=0200e-2)"), CanonicalBody("z=scale(x=a,by=2e0);")),
    writes(Body("z=scale(a,by=20)"), CanonicalBody("z=scale(x=a,by=2e1);")),
    writes(Body("z=scale(a,by=0)"), CanonicalBody("z=scale(x=a,by=0e0);")),
    writes(Body("z=scale(a,by=00.000e-9999)"), CanonicalBody("z=scale(x=a,by=0e0);")),
    writes(Body("z=scale(a,by=1e999)"), CanonicalBody("z=scale(x=a,by=1e999);")),
    writes(Body("z=scale(a,by=0.1e-998)"), CanonicalBody("z=scale(x=a,by=1e-999);")),
    writes(Body("z=scale(a,by=123456789.012345678)"), CanonicalBody("z=scale(x=a,by=123456789012345678e-9);")),
    writes(Body("z=scale(a,by=999999999999999999000000000000)"), CanonicalBody("z=scale(x=a,by=999999999999999999e12);")),
    writes(Body("z=scale(a,by=2147483647)"), CanonicalBody("z=scale(x=a,by=2147483647e0);")),
    writes(Body("z=scale(a,by=2147483648)"), CanonicalBody("z=scale(x=a,by=2147483648e0);")),
    writes(Body("z=both(2,2.50)"), CanonicalBody("z=both(x=2e0,y=25e-1);")),
    writes(Body("z=both(true,false)"), CanonicalBody("z=both(x=true,y=false);")),
    writes(Body("[z]=items([a,1,02.0,true])"), CanonicalBody("[z]=items(x=[a,1e0,2e0,true]);")),
    // A number at extent is whole.
    writes(Body("z,b=split(a,parts=2)"), CanonicalBody("z,b=split(x=a,parts=2);")),
    writes(Body("z,b=split(a,parts=20)"), CanonicalBody("z,b=split(x=a,parts=20);")),
    writes(Body("z,b=split(a,parts=0020)"), CanonicalBody("z,b=split(x=a,parts=20);")),
    writes(Body("z,b=split(a,parts=000)"), CanonicalBody("z,b=split(x=a,parts=0);")),
    writes(Body("z,b=split(a,parts=00002147483647)"), CanonicalBody("z,b=split(x=a,parts=2147483647);")),
    writes(Body("z=pads(a,pad=[(02,02),(2,2.0)])"), CanonicalBody("z=pads(x=a,pad=[(2,2e0),(2,2e0)]);")),
    // A sign stands directly before its number.
    writes(Body("z=scale(a,by=-1)"), CanonicalBody("z=scale(x=a,by=-1e0);")),
    writes(Body("z=scale(a,by=- 1)"), CanonicalBody("z=scale(x=a,by=-1e0);")),
    writes(Body("z=scale(a,by=-#c\n1)"), CanonicalBody("z=scale(x=a,by=-1e0);")),
    writes(Body("z=scale(a,by=-10e-1)"), CanonicalBody("z=scale(x=a,by=-1e0);")),
    writes(Body("z=scale(a,by=-001.000)"), CanonicalBody("z=scale(x=a,by=-1e0);")),
    writes(Body("z=scale(a,by=1)"), CanonicalBody("z=scale(x=a,by=1e0);")),
    writes(Body("z=scale(a,by=-1.5)"), CanonicalBody("z=scale(x=a,by=-15e-1);")),
    writes(Body("z=scale(a,by=-0.50)"), CanonicalBody("z=scale(x=a,by=-5e-1);")),
    writes(Body("z=scale(a,by=-20)"), CanonicalBody("z=scale(x=a,by=-2e1);")),
    writes(Body("z=scale(a,by=-1e999)"), CanonicalBody("z=scale(x=a,by=-1e999);")),
    writes(Body("z=scale(a,by=-0.1e-998)"), CanonicalBody("z=scale(x=a,by=-1e-999);")),
    writes(Body("z=scale(a,by=-999999999999999999)"), CanonicalBody("z=scale(x=a,by=-999999999999999999e0);")),
    writes(Body("z=scale(a,by=-123456789.012345678)"), CanonicalBody("z=scale(x=a,by=-123456789012345678e-9);")),
    writes(Body("z=scale(a,by=-2147483648)"), CanonicalBody("z=scale(x=a,by=-2147483648e0);")),
    writes(Body("z=scale(a,by=-2147483649)"), CanonicalBody("z=scale(x=a,by=-2147483649e0);")),
    writes(Body("z,b=split(a,parts=-1)"), CanonicalBody("z,b=split(x=a,parts=-1);")),
    writes(Body("z,b=split(a,parts=- 1)"), CanonicalBody("z,b=split(x=a,parts=-1);")),
    writes(Body("z,b=split(a,parts=-\n# c\n\t01)"), CanonicalBody("z,b=split(x=a,parts=-1);")),
    writes(Body("z,b=split(a,parts=-20)"), CanonicalBody("z,b=split(x=a,parts=-20);")),
    writes(Body("z,b=split(a,parts=-2147483648)"), CanonicalBody("z,b=split(x=a,parts=-2147483648);")),
    writes(Body("z,b=split(a,parts=-00002147483648)"), CanonicalBody("z,b=split(x=a,parts=-2147483648);")),
    writes(Body("z,b=split(a,parts=-2147483647)"), CanonicalBody("z,b=split(x=a,parts=-2147483647);")),
    writes(Body("z=both(-2,-2.50)"), CanonicalBody("z=both(x=-2e0,y=-25e-1);")),
    writes(Body("z=both(y=-1,x=a)"), CanonicalBody("z=both(x=a,y=-1e0);")),
    writes(Body("[z]=items([-1,a,- 2.0,1,true])"), CanonicalBody("[z]=items(x=[-1e0,a,-2e0,1e0,true]);")),
    writes(Body("z=pads(a,pad=[(-02,-02),(2,-2.0),(-2,2)])"), CanonicalBody("z=pads(x=a,pad=[(-2,-2e0),(2,-2e0),(-2,2e0)]);")),
    writes(Body("z=late(x=(-1,-1),y=-1)"), CanonicalBody("z=late(x=(-1e0,-1),y=-1e0);")),
    writes(Body("(z,b),c=nest((-1,[a,-1,1]))"), CanonicalBody("(z,b),c=nest(x=(-1e0,[a,-1e0,1e0]));")),
    // Minus zero is zero.
    writes(Body("z=scale(a,by=-0)"), CanonicalBody("z=scale(x=a,by=0e0);")),
    writes(Body("z=scale(a,by=-0.0)"), CanonicalBody("z=scale(x=a,by=0e0);")),
    writes(Body("z=scale(a,by=-0.0e5)"), CanonicalBody("z=scale(x=a,by=0e0);")),
    writes(Body("z=scale(a,by=- 000E-9999)"), CanonicalBody("z=scale(x=a,by=0e0);")),
    writes(Body("z,b=split(a,parts=-0)"), CanonicalBody("z,b=split(x=a,parts=0);")),
    writes(Body("z,b=split(a,parts=-000)"), CanonicalBody("z,b=split(x=a,parts=0);")),
    writes(Body("z,b=split(a,parts=- 0)"), CanonicalBody("z,b=split(x=a,parts=0);")),
    writes(Body("z=both(-0,-0.0)"), CanonicalBody("z=both(x=0e0,y=0e0);")),
    writes(Body("[z]=items([-0,0,-0.0e5,-1])"), CanonicalBody("[z]=items(x=[0e0,0e0,0e0,-1e0]);")),
    writes(Body("z=pads(a,pad=[(-0,-0),(0,-0.0)])"), CanonicalBody("z=pads(x=a,pad=[(0,0e0),(0,0e0)]);")),
    writes(Body("z=late(x=(-0,-0),y=a)"), CanonicalBody("z=late(x=(0e0,0),y=a);")),
    // Strings.
    writes(Body("z=label(a,name='s',at=1)"), CanonicalBody("z=label(x=a,name='s',flag=true,at=1);")),
    writes(Body("z=label(a,name=\"s\",at=1)"), CanonicalBody("z=label(x=a,name='s',flag=true,at=1);")),
    writes(Body("z=label(a,name='',at=1)"), CanonicalBody("z=label(x=a,name='',flag=true,at=1);")),
    writes(Body("z=label(a,name=\"\",at=1)"), CanonicalBody("z=label(x=a,name='',flag=true,at=1);")),
    writes(Body("z=label(a,name=\"it's\",at=1)"), CanonicalBody("z=label(x=a,name=\"it's\",flag=true,at=1);")),
    writes(Body("z=label(a,name=\"'\",at=1)"), CanonicalBody("z=label(x=a,name=\"'\",flag=true,at=1);")),
    writes(Body("z=label(a,name='\"',at=1)"), CanonicalBody("z=label(x=a,name='\"',flag=true,at=1);")),
    writes(Body("z=label(a,name=\" 1e0 # a=b;  \",at=1)"), CanonicalBody("z=label(x=a,name=' 1e0 # a=b;  ',flag=true,at=1);")),
    // Defaults are filled in, and not over an argument.
    writes(Body("z=scale(a)"), CanonicalBody("z=scale(x=a,by=1e0);")),
    writes(Body("z=scale(a,by=1)"), CanonicalBody("z=scale(x=a,by=1e0);")),
    writes(Body("z=scale(by=3,x=a)"), CanonicalBody("z=scale(x=a,by=3e0);")),
    writes(Body("z=both(a)"), CanonicalBody("z=both(x=a,y=0e0);")),
    writes(Body("z=both(y=a)"), CanonicalBody("z=both(x=0e0,y=a);")),
    writes(Body("z=both(y=a,x=0.0)"), CanonicalBody("z=both(x=0e0,y=a);")),
    writes(Body("z=late(y=a)"), CanonicalBody("z=late(x=(0e0,0),y=a);")),
    writes(Body("z=late(x=(a,00),y=a)"), CanonicalBody("z=late(x=(a,0),y=a);")),
    writes(Body("z=label(a,at=1,flag=false,name='s')"), CanonicalBody("z=label(x=a,name='s',flag=false,at=1);")),
    under(DEFAULTS, Body("z=f(b=1)"), CanonicalBody(
        "z=f(a=5e-1,b=1e0,c=7,d=\"it's\",e=\"'\",g='',h=[[],[true,false]],i=(true,(0,[1e2,3e0])),j=[]);",
    )),
    under(DEFAULTS, Body("z=f(j=[a,a],i=(a,(1,[])),h=[[]],g='\"',e='e',d='it',c=0,b=a,a=0)"), CanonicalBody(
        "z=f(a=0e0,b=a,c=0,d='it',e='e',g='\"',h=[[]],i=(a,(1,[])),j=[a,a]);",
    )),
    under(SHIFTS, Body("z=shift(a)"), CanonicalBody("z=shift(x=a,step=-1);")),
    under(SHIFTS, Body("z=shift(a,step=-01)"), CanonicalBody("z=shift(x=a,step=-1);")),
    under(SHIFTS, Body("z=shift(a,step=1)"), CanonicalBody("z=shift(x=a,step=1);")),
    under(SHIFTS, Body("z=shift(-1,step=-0)"), CanonicalBody("z=shift(x=-1e0,step=0);")),
    under(SHIFTS, Body("b=shifts(a)z=shifts(steps=[])"), CanonicalBody(
        "b=shifts(x=a,steps=[-1,2,0],at=[(0,(0e0,[0e0,-2e1])),(-2147483648,(-2147483648e0,[]))]);\n\
         z=shifts(x=-15e-1,steps=[],at=[(0,(0e0,[0e0,-2e1])),(-2147483648,(-2147483648e0,[]))]);",
    )),
    under(WIDE, Body("z=wide(a)"), Pieces(&[
        ("version 1.0\ngraph g(a)->(z)\n{\na=external(shape=[1]);\nz=wide(x=a", 1), (",p%=%", 31), (");\n}\n", 1),
    ])),
    under(WIDE, Body("z=wide(p30=99,x=a)"), Pieces(&[
        ("version 1.0\ngraph g(a)->(z)\n{\na=external(shape=[1]);\nz=wide(x=a", 1), (",p%=%", 30), (",p30=99);\n}\n", 1),
    ])),
    // A left side's top tuple is bare, and no other.
    writes(Body("(z,b)=split(a,parts=2)"), CanonicalBody("z,b=split(x=a,parts=2);")),
    writes(Body("(z,b),c=nest((a,[]))"), CanonicalBody("(z,b),c=nest(x=(a,[]));")),
    writes(Body("((z,b),c)=nest((a,[a,2]))"), CanonicalBody("(z,b),c=nest(x=(a,[a,2e0]));")),
    writes(Body("[z]=items([])"), CanonicalBody("[z]=items(x=[]);")),
    writes(Body("[]=items([a])[]=sizes(a)[z,b]=items([])"), CanonicalBody("[]=items(x=[a]);\n[]=sizes(x=a);\n[z,b]=items(x=[]);")),
    under(DEEP, Body("[[[[[[[[]]]]]]]],z=deep([[[[[[[[a]]]]]]]])"), CanonicalBody(
        "[[[[[[[[]]]]]]]],z=deep(x=[[[[[[[[a]]]]]]]],y=[[[[[[[[1e0]]]]]]]]);",
    )),
    // Names and the order of calls are kept.
    under(
        EXAMPLE_LIST,
        Once("version 1.0 graph graph1(b,a)->(y,z){z=scale(1)a=external(shape=[])b=external(shape=[0,0])y=scale(z)in_=scale(b)}"),
        Once(
            "version 1.0\ngraph graph1(b,a)->(y,z)\n{\nz=scale(x=1e0,by=1e0);\na=external(shape=[]);\n\
             b=external(shape=[0,0]);\ny=scale(x=z,by=1e0);\nin_=scale(x=b,by=1e0);\n}\n",
        ),
    ),
    under(
        EXAMPLE_LIST,
        Pieces(&[("version 1.0 graph ", 1), ("g", 64), ("(a)->(c0){a=external(shape=[])", 1), ("c%=scale(a)", 200), ("}", 1)]),
        Pieces(&[("version 1.0\ngraph ", 1), ("g", 64), ("(a)->(c0)\n{\na=external(shape=[]);\n", 1), ("c%=scale(x=a,by=1e0);\n", 200), ("}\n", 1)]),
    ),
    under(
        Once("fragment external(x: tensor) -> (y: tensor) fragment f(x: tensor) -> (y: tensor)"),
        Pieces(&[("version 1.0 graph g(a)->(c0){a=external(1)", 1), ("c%=f(a)", 383), ("}", 1)]),
        Pieces(&[("version 1.0\ngraph g(a)->(c0)\n{\na=external(x=1e0);\n", 1), ("c%=f(x=a);\n", 383), ("}\n", 1)]),
    ),
    // 26: the output is shorter than the canonical text.
    example([16_384, 16_384, 88]),
    example([16_384, 16_400, 89]),
    example([16_400, 16_384, 40_000]),
    short([16_384, 16_384, 87]),
    short([16_384, 16_400, 1]),
    short([16_400, 16_384, 0]),
    // 25: more than 16,384 bytes.
    sized(16_384, 2_999, under(
        EXAMPLE_LIST,
        Pieces(&[("version 1.0 graph ", 1), ("g", 9), ("(a)->(z){a=external(shape=[2147483647", 1), (",2147483647", 1_481), ("])z=scale(a)}", 1)]),
        Pieces(&[
            ("version 1.0\ngraph ", 1), ("g", 9), ("(a)->(z)\n{\na=external(shape=[2147483647", 1), (",2147483647", 1_481),
            ("]);\nz=scale(x=a,by=1e0);\n}\n", 1),
        ]),
    )),
    refused(25, EXAMPLE_LIST, Pieces(&[
        ("version 1.0 graph ", 1), ("g", 10), ("(a)->(z){a=external(shape=[2147483647", 1), (",2147483647", 1_481), ("])z=scale(a)}", 1),
    ])),
    // 25: a sign is a byte and a token of the canonical text, and minus zero has none.
    sized(16_384, 3_000, under(
        EXAMPLE_LIST,
        Pieces(&[("version 1.0 graph ", 1), ("g", 8), ("(a)->(z){a=external(shape=[-2147483648", 1), (",2147483647", 1_481), ("])z=scale(a)}", 1)]),
        Pieces(&[
            ("version 1.0\ngraph ", 1), ("g", 8), ("(a)->(z)\n{\na=external(shape=[-2147483648", 1), (",2147483647", 1_481),
            ("]);\nz=scale(x=a,by=1e0);\n}\n", 1),
        ]),
    )),
    refused(25, EXAMPLE_LIST, Pieces(&[
        ("version 1.0 graph ", 1), ("g", 9), ("(a)->(z){a=external(shape=[-2147483648", 1), (",2147483647", 1_481), ("])z=scale(a)}", 1),
    ])),
    sized(4_133, 4_096, under(
        OPERATIONS,
        Pieces(&[("version 1.0 graph g(a)->(z){a=external(shape=[-0", 1), (",1", 2_029), ("])z=pads(a)}", 1)]),
        Pieces(&[("version 1.0\ngraph g(a)->(z)\n{\na=external(shape=[0", 1), (",1", 2_029), ("]);\nz=pads(x=a,pad=[]);\n}\n", 1)]),
    )),
    refused(25, OPERATIONS, Pieces(&[("version 1.0 graph g(a)->(z){a=external(shape=[-1", 1), (",1", 2_029), ("])z=pads(a)}", 1)])),
    sized(4_133, 4_096, under(
        OPERATIONS,
        Pieces(&[("version 1.0 graph g(a)->(z){a=external(shape=[1", 1), (",-1", 1_352), (",-0])z=pads(a)}", 1)]),
        Pieces(&[("version 1.0\ngraph g(a)->(z)\n{\na=external(shape=[1", 1), (",-1", 1_352), (",0]);\nz=pads(x=a,pad=[]);\n}\n", 1)]),
    )),
    refused(25, OPERATIONS, Pieces(&[("version 1.0 graph g(a)->(z){a=external(shape=[1", 1), (",-1", 1_353), ("])z=pads(a)}", 1)])),
    refused(25, SHIFTS, Pieces(&[("version 1.0 graph g(a)->(z0){a=external(shape=[])", 1), ("z%=shifts(a)", 120), ("}", 1)])),
    // 25: more than 4,096 tokens.
    sized(4_133, 4_096, under(
        OPERATIONS,
        Pieces(&[("version 1.0 graph g(a)->(z){a=external(shape=[1", 1), (",1", 2_029), ("])z=pads(a)}", 1)]),
        Pieces(&[("version 1.0\ngraph g(a)->(z)\n{\na=external(shape=[1", 1), (",1", 2_029), ("]);\nz=pads(x=a,pad=[]);\n}\n", 1)]),
    )),
    refused(25, OPERATIONS, Pieces(&[("version 1.0 graph g(a)->(z){a=external(shape=[1", 1), (",1", 2_030), ("])z=scale(a)}", 1)])),
    // 25: from defaults alone, many times over.
    refused(25, WIDE, Pieces(&[("version 1.0 graph g(a)->(z0){a=external(shape=[])", 1), ("z%=wide(a)", 383), ("}", 1)])),
    // 25 comes before 26, and a fault of the texts before both.
    lent([16_384, 16_384, 0], refused(25, OPERATIONS, Pieces(&[
        ("version 1.0 graph g(a)->(z){a=external(shape=[1", 1), (",1", 2_030), ("])z=scale(a)}", 1),
    ]))),
    lent([16_384, 16_384, 0], refused(24, OPERATIONS, Pieces(&[
        ("version 1.0 graph g(a)->(z,@y){a=external(shape=[1", 1), (",1", 2_030), ("])z=scale(a)}", 1),
    ]))),
    lent([16_384, 16_384, 0], refused(18, OPERATIONS, Body("z=scale(a,by=@true)"))),
    // 1 and 2.
    lent([16_383, 16_384, 88], refused(1, EXAMPLE_LIST, EXAMPLE)),
    lent([16_384, 16_383, 88], refused(1, EXAMPLE_LIST, EXAMPLE)),
    lent([0, 0, 0], refused(1, Once("$"), Once("$"))),
    lent([16_384, 0, 0], refused(1, Pieces(&[(" ", 16_385)]), EXAMPLE)),
    long(1, Pieces(&[(" ", 16_385)]), Pieces(&[(" ", 16_385)])),
    long(2, EXAMPLE_LIST, Pieces(&[(" ", 16_385)])),
    long(2, Once("$"), Pieces(&[("$", 16_385)])),
    // The list's bytes, syntax and rules, then the document's.
    refused(3, Once("fragment @$"), Once("$")),
    refused(9, Once("fragment @("), Once("$")),
    refused(10, Pieces(&[("fragment f(x: tensor = ", 1), ("[", 8), ("@[", 1)]), Once("$")),
    refused(14, Once("fragment f(x: extent = @1.5) -> (y: tensor)"), Once("$")),
    refused(13, Once("fragment f(x: tensor) -> (@x: tensor)"), Once("")),
    refused(9, Once(""), Once("@")),
    refused(3, EXAMPLE_LIST, Once("graph @$")),
    refused(7, EXAMPLE_LIST, Once("version @1e1000")),
    refused(9, EXAMPLE_LIST, Once("version 1.0 graph @(a)")),
    refused(11, EXAMPLE_LIST, Once("version @1 graph g(a)->(z){a=external(shape=[])z=scale(a)}")),
    refused(13, EXAMPLE_LIST, Once("version 1.0 graph g(a)->(z,@z){a=external(shape=[])z=scale(a)}")),
    refused(15, OPERATIONS, Body("z=@f(a)")),
    refused(16, OPERATIONS, Body("z=scale(a,@2)")),
    refused(17, OPERATIONS, Body("z=scale(a,@x=a)")),
    refused(18, OPERATIONS, Body("z,b=split(a,parts=@2147483648)")),
    refused(18, OPERATIONS, Body("z,b=split(a,parts=@-2147483649)")),
    refused(16, OPERATIONS, Body("z=scale(a,@-2)")),
    refused(14, Once("fragment f(x: extent = @-1.5) -> (y: tensor)"), Once("$")),
    refused(9, OPERATIONS, Body("z=scale(-@a)")),
    refused(9, OPERATIONS, Body("[@-1]=scale(a)")),
    refused(9, EXAMPLE_LIST, Once("version @-1.0")),
    unbound(3, Body("z=@label(a,name='s')")),
    refused(20, OPERATIONS, Body("@z=split(a,parts=2)")),
    refused(21, OPERATIONS, Body("z=scale(a)@z=scale(a)")),
    refused(22, OPERATIONS, Body("z=scale(@b)")),
    refused(23, OPERATIONS, Body("z=scale(a)@b=external(shape=[])")),
];
