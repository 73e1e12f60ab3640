\\ The field and the code of the rules by PARI/GP. Each line that is printed is one answer, for against_pari.c.

default(recover, 0); \\ an error ends it
p = Mod(1, 2) * (z^8 + z^4 + z^3 + z^2 + 1);
a = ffgen(p, 'a);
print("primitive ", polisirreducible(p) && fforder(a) == 255);

\\ An element as a byte, and a byte as an element: bit i for a^i.
byte(x) = subst(x.pol, 'a, 2);
element(b) = subst(Pol(binary(b), 'z), 'z, a);
for (e = 0, 255, print("power ", e, " ", byte(a^e)));
for (b = 1, 255, print("logarithm ", b, " ", fflog(element(b), a)));

\\ Polynomials as numbers: bit i for z^i.
number(f) = subst(lift(f), 'z, 2);
polynomial(x) = Mod(1, 2) * Pol(binary(x), 'z);
first = minpoly(a, 'z);
third = minpoly(a^3, 'z);
g = first * third;
print("minimal 1 ", number(first));
print("minimal 3 ", number(third));
print("g ", number(g));

\\ The n bits of the word whose k data bits are those of the number d, its top bit first.
{
word(n, d) =
    my(c = polynomial(d) * z^16);
    c += c % g;
    concat(concat([Str(lift(polcoef(c, n - 2 - j))) | j <- [0 .. n - 2]]), Str(lift(subst(c, 'z, 1))));
}
words(n, d, e) = print("words ", n, " ", word(n, d), " ", word(n, e));

\\ Data that is not zero, so that both words of a frame can be seen in it; and once zero.
setrand(1);
some(k) = 1 + random(2^k - 1);
{
for (n = 18, 256,
    my(k = n - 17);
    words(n, 0, 0);
    words(n, 1, some(k));
    words(n, some(k), 2^k - 1);
    words(n, some(k), some(k));
    words(n, some(k), some(k)));
}
print("end");
