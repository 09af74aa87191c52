% A preference file's plain program: the holds/1 atoms of each stable model are a preferred state.
n("sensor") :- not holds("sensor").
n("lamp") :- not holds("lamp").
holds("dark") :- not n("dark").
n("dark") :- not holds("dark").
holds("sensor") | holds("lamp").
:- holds("lamp"), not holds("dark").
s("sensor") | s("lamp") | u.
s("dark") | u :- s("lamp").
e(0) | u.
d("sensor") | e(1) | u :- e(0).
d("lamp") | e(2) | u :- e(1).
u :- d("sensor"), not holds("sensor").
u :- d("sensor"), s("sensor").
u :- e(0), s("sensor"), not holds("sensor").
s("sensor") | u :- e(1), not n("sensor").
u :- d("lamp"), not holds("lamp").
u :- d("lamp"), s("lamp").
u :- e(1), s("lamp"), not holds("lamp").
s("lamp") | u :- e(2), not n("lamp").
s("sensor") :- u.
s("lamp") :- u.
s("dark") :- u.
d("sensor") :- u.
d("lamp") :- u.
e(0) :- u.
e(1) :- u.
e(2) :- u.
u :- e(2).
:- not u.
#show holds/1.
