"""Names in the languages of other programs: kept where the language takes them, and else made over, no two the same."""

import keyword
import re

# The words that Verilog and SystemVerilog keep for themselves.
VERILOG = frozenset(
    """accept_on alias always always_comb always_ff always_latch and assert assign assume automatic before begin bind
    bins binsof bit break buf bufif0 bufif1 byte case casex casez cell chandle checker class clocking cmos config const
    constraint context continue cover covergroup coverpoint cross deassign default defparam design disable dist do edge
    else end endcase endchecker endclass endclocking endconfig endfunction endgenerate endgroup endinterface endmodule
    endpackage endprimitive endprogram endproperty endsequence endspecify endtable endtask enum event eventually expect
    export extends extern final first_match for force foreach forever fork forkjoin function generate genvar global
    highz0 highz1 if iff ifnone ignore_bins illegal_bins implements implies import incdir include initial inout input
    inside instance int integer interconnect interface intersect join join_any join_none large let liblist library local
    localparam logic longint macromodule matches medium modport module nand negedge nettype new nexttime nmos nor
    noshowcancelled not notif0 notif1 null or output package packed parameter pmos posedge primitive priority program
    property protected pull0 pull1 pulldown pullup pulsestyle_ondetect pulsestyle_onevent pure rand randc randcase
    randsequence rcmos real realtime ref reg reject_on release repeat restrict return rnmos rpmos rtran rtranif0
    rtranif1 s_always s_eventually s_nexttime s_until s_until_with scalared sequence shortint shortreal showcancelled
    signed small soft solve specify specparam static string strong strong0 strong1 struct super supply0 supply1
    sync_accept_on sync_reject_on table tagged task this throughout time timeprecision timeunit tran tranif0 tranif1 tri
    tri0 tri1 triand trior trireg type typedef union unique unique0 unsigned until until_with untyped use uwire var
    vectored virtual void wait wait_order wand weak weak0 weak1 while wildcard wire with within wor xnor xor""".split()
)

# The words that Singular 4.3 keeps for itself.
SINGULAR = frozenset(
    """ASSUME ERROR GCD IN LIB NF RETURN TRACE alias align and apply attrib bareiss betti bigint bigintmat bracket
    branchTo break breakpoint char char_series charstr chinrem cleardenom close coef coeffs continue contract convhull
    cring dbprint def defined deg degBound degree delete denominator det diff dim div division dump echo eliminate else
    envelope eval example execute exit export exportto extgcd facstd factmodd factorize farey fetch fglm fglmquot find
    finduni for forif freemodule fres frwalk gcd gen getdump help hilb highcorner homog hres ideal if impart imap
    importfrom indepSet insert int interpolation interred intersect intmat intvec jacob janet jet kbase keepring kernel
    kill killattrib koszul kres laguerre lead leadcoef leadexp leadmonom lift liftstd link list listvar load lres
    ludecomp luinverse lusolve map matrix maxideal memory minbase minor minpoly minres mod module modulo monitor
    monomial mpresmat mres mstd mult multBound multiplicity nameof names nc_algebra ncalgebra ncols newline newstruct
    noether not npars nres nrows number numerator nvars open oppose opposite option or ord ordstr package pagewidth par
    pardeg parameter parstr pause poly polyBucket preimage prime primefactors print printlevel proc prune pyobject
    qhweight qrds qring quit quote quotient random rank read reduce regularity repart reservedName reservedNameList res
    resolution restart resultant return rightstd ring ring_list ringlist rtimer rvar sba setring short simplex simplify
    size slimgb smatrix sortvec sqrfree sres status std string subst syz system tensor test timer trace transpose twostd
    type typeof univariate uressolve vandermonde var variables varstr vdim vector verbose voice waitall waitfirst wedge
    weight while whileif write""".split()
)

# The words with a digit that Macaulay2 1.21 has itself. It has more than a thousand of letters alone, so of those only
# single letters are kept.
MACAULAY2 = frozenset(
    """Homogeneous2 RadicalCodim1 RealQP1 atan2 expm1 log1p makeS2 size2 utf8 utf8check utf8substring""".split()
)


def is_word(name):
    """Whether a name is a letter or _, and then letters, digits and _."""
    return re.fullmatch("[A-Za-z_][A-Za-z0-9_]*", name) is not None


def word(name):
    """A name of letters, digits and _, with _ for each other character, and beginning with a letter."""
    mended = re.sub("[^A-Za-z0-9_]", "_", name)
    return mended if mended[:1].isalpha() else f"v{mended}"


def is_python(name):
    """Whether Python takes a name for what it is given. `__debug__` is no keyword, and a constant."""
    return is_word(name) and not keyword.iskeyword(name) and name != "__debug__"


def mend_for_python(name):
    """A name that Python takes, of one that it does not take."""
    made = word(name)
    return made if is_python(made) else f"{made}_"


def distinct(names, keeps, mend, taken=()):
    """For each name the one that stands for it. `keeps` says whether the language takes a name, and `mend` makes one
    that it takes and that stays one with digits behind it. None is one of those that are taken, or another one of the
    names, so that none can be taken for another."""
    used, given = set(taken), frozenset(names)
    found = [None] * len(names)
    for place, name in enumerate(names):
        if keeps(name) and name not in used:
            found[place] = name
            used.add(name)
    for place, name in enumerate(names):
        if found[place] is None:
            made, number = mend(name), 2
            found[place] = made
            while found[place] in used or found[place] != name and found[place] in given:
                found[place] = f"{made}{number}"
                number += 1
            used.add(found[place])
    return found


def prefix(letter, names):
    """The letter, so often that with a number behind it it is none of the names."""
    longest = letter
    while any(re.fullmatch(f"{longest}[0-9]+", name) for name in names):
        longest += letter
    return longest


def comments(mark, before, after):
    """A line for each name that another one stands for. Each ends with a word of its own, as in BLIF and Singular a
    line goes on that ends with a backslash, which a name may have as its last sign."""
    for old, new in zip(before, after):
        if old != new:
            yield f"{mark} {old} is {new} here"
