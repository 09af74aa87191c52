% A preference file's plain program: the holds/1 atoms of each stable model are a preferred state.
n("ab1") :- not holds("ab1").
n("ab2") :- not holds("ab2").
n("ab3") :- not holds("ab3").
n("ab4") :- not holds("ab4").
n("ab5") :- not holds("ab5").
n("ab6") :- not holds("ab6").
n("ab7") :- not holds("ab7").
n("ab8") :- not holds("ab8").
n("ab9") :- not holds("ab9").
n("ab10") :- not holds("ab10").
n("ab12") :- not holds("ab12").
n("ab13") :- not holds("ab13").
n("ab14") :- not holds("ab14").
n("ab15") :- not holds("ab15").
n("ab16") :- not holds("ab16").
n("ab17") :- not holds("ab17").
n("ab18") :- not holds("ab18").
n("ab22") :- not holds("ab22").
n("ab24") :- not holds("ab24").
n("ab30") :- not holds("ab30").
holds("high1") :- not n("high1").
n("high1") :- not holds("high1").
holds("high2") :- not n("high2").
n("high2") :- not holds("high2").
holds("high3") :- not n("high3").
n("high3") :- not holds("high3").
holds("high4") :- not n("high4").
n("high4") :- not holds("high4").
holds("high5") :- not n("high5").
n("high5") :- not holds("high5").
holds("high6") :- not n("high6").
n("high6") :- not holds("high6").
holds("high7") :- not n("high7").
n("high7") :- not holds("high7").
holds("high8") :- not n("high8").
n("high8") :- not holds("high8").
holds("high9") :- not n("high9").
n("high9") :- not holds("high9").
holds("high10") :- not n("high10").
n("high10") :- not holds("high10").
holds("high11") :- not n("high11").
n("high11") :- not holds("high11").
holds("high12") :- not n("high12").
n("high12") :- not holds("high12").
holds("high13") :- not n("high13").
n("high13") :- not holds("high13").
holds("high14") :- not n("high14").
n("high14") :- not holds("high14").
holds("high15") :- not n("high15").
n("high15") :- not holds("high15").
holds("high16") :- not n("high16").
n("high16") :- not holds("high16").
holds("high17") :- not n("high17").
n("high17") :- not holds("high17").
holds("high18") :- not n("high18").
n("high18") :- not holds("high18").
holds("high19") :- not n("high19").
n("high19") :- not holds("high19").
holds("high20") :- not n("high20").
n("high20") :- not holds("high20").
holds("high21") :- not n("high21").
n("high21") :- not holds("high21").
holds("high22") :- not n("high22").
n("high22") :- not holds("high22").
holds("high23") :- not n("high23").
n("high23") :- not holds("high23").
holds("high24") :- not n("high24").
n("high24") :- not holds("high24").
holds("high25") :- not n("high25").
n("high25") :- not holds("high25").
holds("high26") :- not n("high26").
n("high26") :- not holds("high26").
holds("high27") :- not n("high27").
n("high27") :- not holds("high27").
holds("high28") :- not n("high28").
n("high28") :- not holds("high28").
holds("high29") :- not n("high29").
n("high29") :- not holds("high29").
holds("high30") :- not n("high30").
n("high30") :- not holds("high30").
holds("high31") :- not n("high31").
n("high31") :- not holds("high31").
holds("high32") :- not n("high32").
n("high32") :- not holds("high32").
holds("high33") :- not n("high33").
n("high33") :- not holds("high33").
holds("high34") :- not n("high34").
n("high34") :- not holds("high34").
holds("high35") :- not n("high35").
n("high35") :- not holds("high35").
holds("ab1") :- not holds("high2"), not holds("high4"), not holds("high8"), not n("high1").
holds("ab1") :- not holds("high2"), not holds("high4"), not holds("high1"), not n("high8").
holds("ab1") :- not holds("high2"), not holds("high8"), not holds("high1"), not n("high4").
holds("ab1") :- not holds("high2"), not holds("high1"), not n("high4"), not n("high8").
holds("ab1") :- not holds("high4"), not holds("high8"), not holds("high1"), not n("high2").
holds("ab1") :- not holds("high4"), not holds("high1"), not n("high2"), not n("high8").
holds("ab1") :- not holds("high8"), not holds("high1"), not n("high2"), not n("high4").
holds("ab1") :- not holds("high1"), not n("high2"), not n("high4"), not n("high8").
holds("ab2") :- not holds("high3"), not holds("high5"), not holds("high6"), not n("high2").
holds("ab2") :- not holds("high3"), not holds("high5"), not holds("high2"), not n("high6").
holds("ab2") :- not holds("high3"), not holds("high6"), not holds("high2"), not n("high5").
holds("ab2") :- not holds("high3"), not holds("high2"), not n("high5"), not n("high6").
holds("ab2") :- not holds("high5"), not holds("high6"), not holds("high2"), not n("high3").
holds("ab2") :- not holds("high5"), not holds("high2"), not n("high3"), not n("high6").
holds("ab2") :- not holds("high6"), not holds("high2"), not n("high3"), not n("high5").
holds("ab2") :- not holds("high2"), not n("high3"), not n("high5"), not n("high6").
holds("ab3") :- not holds("high7"), not holds("high18"), not holds("high20"), not n("high3").
holds("ab3") :- not holds("high7"), not holds("high18"), not holds("high3"), not n("high20").
holds("ab3") :- not holds("high7"), not holds("high20"), not holds("high3"), not n("high18").
holds("ab3") :- not holds("high7"), not n("high18"), not n("high20"), not n("high3").
holds("ab3") :- not holds("high18"), not holds("high20"), not holds("high3"), not n("high7").
holds("ab3") :- not holds("high18"), not n("high7"), not n("high20"), not n("high3").
holds("ab3") :- not holds("high20"), not n("high7"), not n("high18"), not n("high3").
holds("ab3") :- not holds("high3"), not n("high7"), not n("high18"), not n("high20").
holds("ab4") :- not holds("high9"), not holds("high32"), not holds("high34"), not holds("high4").
holds("ab4") :- not holds("high9"), not holds("high32"), not n("high34"), not n("high4").
holds("ab4") :- not holds("high9"), not holds("high34"), not n("high32"), not n("high4").
holds("ab4") :- not holds("high9"), not n("high32"), not n("high34"), not n("high4").
holds("ab4") :- not holds("high32"), not holds("high34"), not n("high9"), not n("high4").
holds("ab4") :- not holds("high32"), not n("high9"), not n("high34"), not n("high4").
holds("ab4") :- not holds("high34"), not n("high9"), not n("high32"), not n("high4").
holds("ab4") :- not n("high9"), not n("high32"), not n("high34"), not n("high4").
holds("ab5") :- not holds("high10"), not holds("high5").
holds("ab5") :- not n("high10"), not n("high5").
holds("ab6") :- not holds("high12"), not holds("high6").
holds("ab6") :- not n("high12"), not n("high6").
holds("ab7") :- not holds("high16"), not holds("high17"), not holds("high27"), not n("high7").
holds("ab7") :- not holds("high16"), not holds("high17"), not holds("high7"), not n("high27").
holds("ab7") :- not holds("high16"), not holds("high27"), not holds("high7"), not n("high17").
holds("ab7") :- not holds("high16"), not holds("high7"), not n("high17"), not n("high27").
holds("ab7") :- not holds("high17"), not holds("high27"), not holds("high7"), not n("high16").
holds("ab7") :- not holds("high17"), not holds("high7"), not n("high16"), not n("high27").
holds("ab7") :- not holds("high27"), not holds("high7"), not n("high16"), not n("high17").
holds("ab7") :- not holds("high7"), not n("high16"), not n("high17"), not n("high27").
holds("ab8") :- not holds("high13"), not holds("high8").
holds("ab8") :- not n("high13"), not n("high8").
holds("ab9") :- not holds("high11"), not holds("high9").
holds("ab9") :- not n("high11"), not n("high9").
holds("ab10") :- not holds("high14"), not holds("high22"), not holds("high10").
holds("ab10") :- not holds("high14"), not n("high22"), not n("high10").
holds("ab10") :- not holds("high22"), not n("high14"), not n("high10").
holds("ab10") :- not n("high14"), not n("high22"), not n("high10").
holds("ab12") :- not holds("high24"), not holds("high35"), not n("high12").
holds("ab12") :- not holds("high24"), not holds("high12"), not n("high35").
holds("ab12") :- not holds("high35"), not holds("high12"), not n("high24").
holds("ab12") :- not holds("high12"), not n("high24"), not n("high35").
holds("ab13") :- not holds("high15"), not holds("high23"), not holds("high28"), not n("high13").
holds("ab13") :- not holds("high15"), not holds("high23"), not holds("high13"), not n("high28").
holds("ab13") :- not holds("high15"), not holds("high28"), not holds("high13"), not n("high23").
holds("ab13") :- not holds("high15"), not holds("high13"), not n("high23"), not n("high28").
holds("ab13") :- not holds("high23"), not holds("high28"), not holds("high13"), not n("high15").
holds("ab13") :- not holds("high23"), not holds("high13"), not n("high15"), not n("high28").
holds("ab13") :- not holds("high28"), not holds("high13"), not n("high15"), not n("high23").
holds("ab13") :- not holds("high13"), not n("high15"), not n("high23"), not n("high28").
holds("ab14") :- not holds("high25"), not holds("high14").
holds("ab14") :- not n("high25"), not n("high14").
holds("ab15") :- not holds("high29"), not holds("high15").
holds("ab15") :- not n("high29"), not n("high15").
holds("ab16") :- not holds("high19"), not holds("high16").
holds("ab16") :- not n("high19"), not n("high16").
holds("ab17") :- not holds("high26"), not holds("high17").
holds("ab17") :- not n("high26"), not n("high17").
holds("ab18") :- not holds("high21"), not holds("high18").
holds("ab18") :- not n("high21"), not n("high18").
holds("ab22") :- not holds("high31"), not holds("high22").
holds("ab22") :- not n("high31"), not n("high22").
holds("ab24") :- not holds("high30"), not holds("high24").
holds("ab24") :- not n("high30"), not n("high24").
holds("ab30") :- not holds("high33"), not holds("high30").
holds("ab30") :- not n("high33"), not n("high30").
:- not n("high11").
:- not n("high19").
:- not n("high20").
:- not holds("high21").
:- not n("high23").
:- not holds("high25").
:- not n("high26").
:- not n("high27").
:- not n("high28").
:- not holds("high29").
:- not n("high31").
:- not n("high32").
:- not n("high33").
:- not n("high34").
:- not holds("high35").
:- not n("high1").
s("high2") | s("high4") | s("high8") | s("ab1") | u :- s("high1").
s("high2") | s("high4") | s("high1") | s("ab1") | u :- s("high8").
s("high2") | s("high8") | s("high1") | s("ab1") | u :- s("high4").
s("high2") | s("high1") | s("ab1") | u :- s("high4"), s("high8").
s("high4") | s("high8") | s("high1") | s("ab1") | u :- s("high2").
s("high4") | s("high1") | s("ab1") | u :- s("high2"), s("high8").
s("high8") | s("high1") | s("ab1") | u :- s("high2"), s("high4").
s("high1") | s("ab1") | u :- s("high2"), s("high4"), s("high8").
s("high3") | s("high5") | s("high6") | s("ab2") | u :- s("high2").
s("high3") | s("high5") | s("high2") | s("ab2") | u :- s("high6").
s("high3") | s("high6") | s("high2") | s("ab2") | u :- s("high5").
s("high3") | s("high2") | s("ab2") | u :- s("high5"), s("high6").
s("high5") | s("high6") | s("high2") | s("ab2") | u :- s("high3").
s("high5") | s("high2") | s("ab2") | u :- s("high3"), s("high6").
s("high6") | s("high2") | s("ab2") | u :- s("high3"), s("high5").
s("high2") | s("ab2") | u :- s("high3"), s("high5"), s("high6").
s("high7") | s("high18") | s("high20") | s("ab3") | u :- s("high3").
s("high7") | s("high18") | s("high3") | s("ab3") | u :- s("high20").
s("high7") | s("high20") | s("high3") | s("ab3") | u :- s("high18").
s("high7") | s("ab3") | u :- s("high18"), s("high20"), s("high3").
s("high18") | s("high20") | s("high3") | s("ab3") | u :- s("high7").
s("high18") | s("ab3") | u :- s("high7"), s("high20"), s("high3").
s("high20") | s("ab3") | u :- s("high7"), s("high18"), s("high3").
s("high3") | s("ab3") | u :- s("high7"), s("high18"), s("high20").
s("high9") | s("high32") | s("high34") | s("high4") | s("ab4") | u.
s("high9") | s("high32") | s("ab4") | u :- s("high34"), s("high4").
s("high9") | s("high34") | s("ab4") | u :- s("high32"), s("high4").
s("high9") | s("ab4") | u :- s("high32"), s("high34"), s("high4").
s("high32") | s("high34") | s("ab4") | u :- s("high9"), s("high4").
s("high32") | s("ab4") | u :- s("high9"), s("high34"), s("high4").
s("high34") | s("ab4") | u :- s("high9"), s("high32"), s("high4").
s("ab4") | u :- s("high9"), s("high32"), s("high34"), s("high4").
s("high10") | s("high5") | s("ab5") | u.
s("ab5") | u :- s("high10"), s("high5").
s("high12") | s("high6") | s("ab6") | u.
s("ab6") | u :- s("high12"), s("high6").
s("high16") | s("high17") | s("high27") | s("ab7") | u :- s("high7").
s("high16") | s("high17") | s("high7") | s("ab7") | u :- s("high27").
s("high16") | s("high27") | s("high7") | s("ab7") | u :- s("high17").
s("high16") | s("high7") | s("ab7") | u :- s("high17"), s("high27").
s("high17") | s("high27") | s("high7") | s("ab7") | u :- s("high16").
s("high17") | s("high7") | s("ab7") | u :- s("high16"), s("high27").
s("high27") | s("high7") | s("ab7") | u :- s("high16"), s("high17").
s("high7") | s("ab7") | u :- s("high16"), s("high17"), s("high27").
s("high13") | s("high8") | s("ab8") | u.
s("ab8") | u :- s("high13"), s("high8").
s("high11") | s("high9") | s("ab9") | u.
s("ab9") | u :- s("high11"), s("high9").
s("high14") | s("high22") | s("high10") | s("ab10") | u.
s("high14") | s("ab10") | u :- s("high22"), s("high10").
s("high22") | s("ab10") | u :- s("high14"), s("high10").
s("ab10") | u :- s("high14"), s("high22"), s("high10").
s("high24") | s("high35") | s("ab12") | u :- s("high12").
s("high24") | s("high12") | s("ab12") | u :- s("high35").
s("high35") | s("high12") | s("ab12") | u :- s("high24").
s("high12") | s("ab12") | u :- s("high24"), s("high35").
s("high15") | s("high23") | s("high28") | s("ab13") | u :- s("high13").
s("high15") | s("high23") | s("high13") | s("ab13") | u :- s("high28").
s("high15") | s("high28") | s("high13") | s("ab13") | u :- s("high23").
s("high15") | s("high13") | s("ab13") | u :- s("high23"), s("high28").
s("high23") | s("high28") | s("high13") | s("ab13") | u :- s("high15").
s("high23") | s("high13") | s("ab13") | u :- s("high15"), s("high28").
s("high28") | s("high13") | s("ab13") | u :- s("high15"), s("high23").
s("high13") | s("ab13") | u :- s("high15"), s("high23"), s("high28").
s("high25") | s("high14") | s("ab14") | u.
s("ab14") | u :- s("high25"), s("high14").
s("high29") | s("high15") | s("ab15") | u.
s("ab15") | u :- s("high29"), s("high15").
s("high19") | s("high16") | s("ab16") | u.
s("ab16") | u :- s("high19"), s("high16").
s("high26") | s("high17") | s("ab17") | u.
s("ab17") | u :- s("high26"), s("high17").
s("high21") | s("high18") | s("ab18") | u.
s("ab18") | u :- s("high21"), s("high18").
s("high31") | s("high22") | s("ab22") | u.
s("ab22") | u :- s("high31"), s("high22").
s("high30") | s("high24") | s("ab24") | u.
s("ab24") | u :- s("high30"), s("high24").
s("high33") | s("high30") | s("ab30") | u.
s("ab30") | u :- s("high33"), s("high30").
u :- s("high11").
u :- s("high19").
u :- s("high20").
s("high21") | u.
u :- s("high23").
s("high25") | u.
u :- s("high26").
u :- s("high27").
u :- s("high28").
s("high29") | u.
u :- s("high31").
u :- s("high32").
u :- s("high33").
u :- s("high34").
s("high35") | u.
u :- s("high1").
e(0) | u.
d("ab1") | d("ab2") | d("ab3") | d("ab4") | d("ab5") | d("ab6") | d("ab7") | d("ab8") | d("ab9") | d("ab10") | e(1) | u :- e(0).
d("ab12") | d("ab13") | d("ab14") | d("ab15") | d("ab16") | d("ab17") | d("ab18") | d("ab22") | e(2) | u :- e(1).
d("ab24") | d("ab30") | e(3) | u :- e(2).
u :- d("ab1"), not holds("ab1").
u :- d("ab1"), s("ab1").
u :- e(0), s("ab1"), not holds("ab1").
s("ab1") | u :- e(1), not n("ab1").
u :- d("ab2"), not holds("ab2").
u :- d("ab2"), s("ab2").
u :- e(0), s("ab2"), not holds("ab2").
s("ab2") | u :- e(1), not n("ab2").
u :- d("ab3"), not holds("ab3").
u :- d("ab3"), s("ab3").
u :- e(0), s("ab3"), not holds("ab3").
s("ab3") | u :- e(1), not n("ab3").
u :- d("ab4"), not holds("ab4").
u :- d("ab4"), s("ab4").
u :- e(0), s("ab4"), not holds("ab4").
s("ab4") | u :- e(1), not n("ab4").
u :- d("ab5"), not holds("ab5").
u :- d("ab5"), s("ab5").
u :- e(0), s("ab5"), not holds("ab5").
s("ab5") | u :- e(1), not n("ab5").
u :- d("ab6"), not holds("ab6").
u :- d("ab6"), s("ab6").
u :- e(0), s("ab6"), not holds("ab6").
s("ab6") | u :- e(1), not n("ab6").
u :- d("ab7"), not holds("ab7").
u :- d("ab7"), s("ab7").
u :- e(0), s("ab7"), not holds("ab7").
s("ab7") | u :- e(1), not n("ab7").
u :- d("ab8"), not holds("ab8").
u :- d("ab8"), s("ab8").
u :- e(0), s("ab8"), not holds("ab8").
s("ab8") | u :- e(1), not n("ab8").
u :- d("ab9"), not holds("ab9").
u :- d("ab9"), s("ab9").
u :- e(0), s("ab9"), not holds("ab9").
s("ab9") | u :- e(1), not n("ab9").
u :- d("ab10"), not holds("ab10").
u :- d("ab10"), s("ab10").
u :- e(0), s("ab10"), not holds("ab10").
s("ab10") | u :- e(1), not n("ab10").
u :- d("ab12"), not holds("ab12").
u :- d("ab12"), s("ab12").
u :- e(1), s("ab12"), not holds("ab12").
s("ab12") | u :- e(2), not n("ab12").
u :- d("ab13"), not holds("ab13").
u :- d("ab13"), s("ab13").
u :- e(1), s("ab13"), not holds("ab13").
s("ab13") | u :- e(2), not n("ab13").
u :- d("ab14"), not holds("ab14").
u :- d("ab14"), s("ab14").
u :- e(1), s("ab14"), not holds("ab14").
s("ab14") | u :- e(2), not n("ab14").
u :- d("ab15"), not holds("ab15").
u :- d("ab15"), s("ab15").
u :- e(1), s("ab15"), not holds("ab15").
s("ab15") | u :- e(2), not n("ab15").
u :- d("ab16"), not holds("ab16").
u :- d("ab16"), s("ab16").
u :- e(1), s("ab16"), not holds("ab16").
s("ab16") | u :- e(2), not n("ab16").
u :- d("ab17"), not holds("ab17").
u :- d("ab17"), s("ab17").
u :- e(1), s("ab17"), not holds("ab17").
s("ab17") | u :- e(2), not n("ab17").
u :- d("ab18"), not holds("ab18").
u :- d("ab18"), s("ab18").
u :- e(1), s("ab18"), not holds("ab18").
s("ab18") | u :- e(2), not n("ab18").
u :- d("ab22"), not holds("ab22").
u :- d("ab22"), s("ab22").
u :- e(1), s("ab22"), not holds("ab22").
s("ab22") | u :- e(2), not n("ab22").
u :- d("ab24"), not holds("ab24").
u :- d("ab24"), s("ab24").
u :- e(2), s("ab24"), not holds("ab24").
s("ab24") | u :- e(3), not n("ab24").
u :- d("ab30"), not holds("ab30").
u :- d("ab30"), s("ab30").
u :- e(2), s("ab30"), not holds("ab30").
s("ab30") | u :- e(3), not n("ab30").
s("ab1") :- u.
s("ab2") :- u.
s("ab3") :- u.
s("ab4") :- u.
s("ab5") :- u.
s("ab6") :- u.
s("ab7") :- u.
s("ab8") :- u.
s("ab9") :- u.
s("ab10") :- u.
s("ab12") :- u.
s("ab13") :- u.
s("ab14") :- u.
s("ab15") :- u.
s("ab16") :- u.
s("ab17") :- u.
s("ab18") :- u.
s("ab22") :- u.
s("ab24") :- u.
s("ab30") :- u.
s("high1") :- u.
s("high2") :- u.
s("high3") :- u.
s("high4") :- u.
s("high5") :- u.
s("high6") :- u.
s("high7") :- u.
s("high8") :- u.
s("high9") :- u.
s("high10") :- u.
s("high11") :- u.
s("high12") :- u.
s("high13") :- u.
s("high14") :- u.
s("high15") :- u.
s("high16") :- u.
s("high17") :- u.
s("high18") :- u.
s("high19") :- u.
s("high20") :- u.
s("high21") :- u.
s("high22") :- u.
s("high23") :- u.
s("high24") :- u.
s("high25") :- u.
s("high26") :- u.
s("high27") :- u.
s("high28") :- u.
s("high29") :- u.
s("high30") :- u.
s("high31") :- u.
s("high32") :- u.
s("high33") :- u.
s("high34") :- u.
s("high35") :- u.
d("ab1") :- u.
d("ab2") :- u.
d("ab3") :- u.
d("ab4") :- u.
d("ab5") :- u.
d("ab6") :- u.
d("ab7") :- u.
d("ab8") :- u.
d("ab9") :- u.
d("ab10") :- u.
d("ab12") :- u.
d("ab13") :- u.
d("ab14") :- u.
d("ab15") :- u.
d("ab16") :- u.
d("ab17") :- u.
d("ab18") :- u.
d("ab22") :- u.
d("ab24") :- u.
d("ab30") :- u.
e(0) :- u.
e(1) :- u.
e(2) :- u.
e(3) :- u.
u :- e(3).
:- not u.
#show holds/1.
