//! What `--help` prints.

pub const PROGRAM: &str = "\
giophantus: the single steps of adding encrypted counts

usage: giophantus COMMAND [OPTION..] [FILE..]

  keygen         make a secret key and its public key from random octets
  encrypt        encrypt counts, or a blank field, under a public key
  add            add ciphertexts without decrypting them
  decrypt        decrypt a ciphertext or a sum
  is-zero        say whether a secret key is a zero of a public key
  limits         print the bound, the headroom, the lengths and the random octets of a set
  multiply-add   multiply two ring elements and add a third
  convert        turn octets into coefficient words, or words into octets

`giophantus COMMAND --help` tells more of each. Every command takes the parameter set as six numbers,
l q n dX dr mlen: --set \"16 2147483647 4 1 1 16\". They are edition 1; a seventh number is the edition,
1 or 2. It matters to keygen alone: every other command does the same in both.

FILE - is standard input or standard output. Files hold the octets alone and not their set.

Exit status: 0, or the number of the refusal; where several apply, the one that stands first here:
  11 --set isn't six or seven numbers with one space between
   1 l isn't 2, 4, 8 or 16
   2 n is outside 2 to 4096
   3 dX or dr isn't 1 or 2
   4 q is too large, or not above B
   5 mlen is above n x b, or no multiple of b
  18 the edition isn't 1 or 2
   6 a wrong length
   7 a non-zero unused bit
   8 a coefficient is q or more, or a count l or more
  14 an element of the secret key has a zero coefficient of t^(n - 1)
   9 the random octets end too early
  10 a decrypted coefficient past mlen isn't zero
Statuses that are no refusals:
  64 a wrong command line, 65 text that isn't numbers, 70 the library gave an unknown number, 73 a key file
  is there already, 74 a file can't be read or written.
";

pub const KEYGEN: &str = "\
giophantus keygen: make a secret key and its public key from random octets

usage: giophantus keygen --set SET --secret-key FILE --public-key FILE [--random FILE] [--force]

  --set SET           six numbers, l q n dX dr mlen, or seven with the edition
  --secret-key FILE   where the secret key goes; only its owner may read it
  --public-key FILE   where the public key goes
  --random FILE       the random octets; without it they come from the system (/dev/urandom). It is said
                      how many were used, from the front, and how many groups and elements among them
                      were dropped: use them for nothing else
  --force             replace key files that are there already

First the two elements of the secret key are drawn. One whose coefficient of t^(n - 1) is zero, one in l,
is dropped whole, and the next octets are taken. Then each coefficient of the public key is drawn from a
group of octets. Where its number, modulo 2 to the bit length of q, is q or more, the group is dropped and
the next is taken. Neither is a fault. `giophantus limits` says how many octets are used where nothing is
dropped, and how many more for each group and each element that is.

The constant of the public key isn't drawn in edition 1. In edition 2, the second supplier's, its n
coefficients are drawn too, after the others, and thrown away. Both make the same keys from the same octets.

Refusals: 11, 1 to 5, 18 for the set; 9 where the random octets end too early, or where some 4 MiB of them
aren't enough: zeros alone, say, are dropped without end.
";

pub const ENCRYPT: &str = "\
giophantus encrypt: encrypt counts, or a blank field, under a public key

usage: giophantus encrypt --set SET --public-key FILE (--counts LIST | --message FILE | --blank)
                          [--random FILE] [--out FILE]

  --set SET           six numbers, l q n dX dr mlen, or seven with the edition
  --public-key FILE   the public key
  --counts LIST       the counts, mlen / b of them, each below l: --counts \"3 0 7 1\". All are given: a
                      count that is missing is not zero
  --message FILE      the counts as a packed message instead
  --blank             a field that was left blank: the set must have mlen 0. Zeros are counts and no blank
  --random FILE       the random octets; without it they come from the system (/dev/urandom). It is said
                      how many were used, from the front, and how many groups among them were dropped:
                      use them for nothing else
  --out FILE          where the ciphertext goes; without it to standard output

Groups are dropped as by keygen, and `giophantus limits` says the same of encrypt.

Refusals: 11, 1 to 5, 18 for the set; 6, 7 or 8 for the public key or the counts; 9 where the random octets
end too early.
";

pub const ADD: &str = "\
giophantus add: add ciphertexts without decrypting them

usage: giophantus add --set SET [--out FILE] FILE FILE..

  --set SET    six numbers, l q n dX dr mlen, or seven with the edition
  --out FILE   where the sum goes; without it to standard output
  FILE         a ciphertext, or a sum; one that is named twice is added twice

The sum of s ciphertexts decrypts to the total, each count modulo l, while s is at most the headroom
(giophantus limits). No file tells how many were added: keep count. Leave blanks out.

Refusals: 11, 1 to 5, 18 for the set; 6 or 8 for a ciphertext.
";

pub const DECRYPT: &str = "\
giophantus decrypt: decrypt a ciphertext or a sum

usage: giophantus decrypt --set SET --secret-key FILE [--counts] [--out FILE] [FILE]

  --set SET           six numbers, l q n dX dr mlen, or seven with the edition
  --secret-key FILE   the secret key
  --counts            print the counts as numbers, or `blank` where mlen is 0; without it the packed message
  --out FILE          where the message goes; without it to standard output
  FILE                the ciphertext; without it from standard input

Refusals: 11, 1 to 5, 18 for the set; 6, 7 or 8 for the secret key or the ciphertext; 14 for a secret key with
an element whose coefficient of t^(n - 1) is zero; 10 where a coefficient past mlen isn't zero: a wrong key,
a wrong mlen, damage, or a sum past the headroom.
";

pub const IS_ZERO: &str = "\
giophantus is-zero: say whether a secret key is a zero of a public key

usage: giophantus is-zero --set SET --secret-key FILE --public-key FILE

  --set SET           six numbers, l q n dX dr mlen, or seven with the edition
  --secret-key FILE   the secret key
  --public-key FILE   the public key

It prints yes or no; the exit status is 0 for both. Refusals: 11, 1 to 5, 18 for the set; 6, 7 or 8 for a key;
14 for a secret key with an element whose coefficient of t^(n - 1) is zero.
";

pub const LIMITS: &str = "\
giophantus limits: print the bound, the headroom, the lengths and the random octets of a set

usage: giophantus limits --set SET

  --set SET   six numbers, l q n dX dr mlen, or seven with the edition

The bound B is the most that one fresh ciphertext takes of q; the headroom is the largest s with
s x B < q, the number of ciphertexts that may be added. The last two lines say how many random octets
are used where nothing is dropped, and how many more for each group that is, and by keygen for each
element. Refusals: 11, 1 to 5, 18.
";

pub const MULTIPLY_ADD: &str = "\
giophantus multiply-add: multiply two ring elements and add a third

usage: giophantus multiply-add --set SET [--out FILE] A B C

  --set SET    six numbers, l q n dX dr mlen, or seven with the edition
  --out FILE   where A x B + C goes; without it to standard output. It may be the file C
  A, B, C      a ring element each, n x qlen octets; A and B may be one file

The product has t^n = 1, and coefficients are modulo q. It is for following the ring's arithmetic step by step;
adding counts doesn't need it. `giophantus convert --kind element` makes a ring element's octets from words,
and words from its octets; the words of a small element may be given too.

Refusals: 11, 1 to 5, 18 for the set; 6 or 8 for a ring element.
";

pub const CONVERT: &str = "\
giophantus convert: turn octets into coefficient words, or words into octets

usage: giophantus convert --set SET --kind KIND --to words|octets [--out FILE] [FILE]

  --set SET     six numbers, l q n dX dr mlen, or seven with the edition
  --kind KIND   element, small, secret-key, public-key, ciphertext or message
  --to words    from octets to decimal numbers, an element on each line
  --to octets   from decimal numbers, with spaces or line ends between, to octets
  --out FILE    where the result goes; without it to standard output
  FILE          what is converted; without it from standard input

Refusals: 11, 1 to 5, 18 for the set; 6 for a wrong length; 7 for a non-zero unused bit; 8 for a coefficient
of q or more, or l or more where a small one is expected. A secret key that decrypt would refuse with 14 is
converted.
";
