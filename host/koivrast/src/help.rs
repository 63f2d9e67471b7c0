//! What `koivrast help` prints.

/// The whole tool.
pub const OVERVIEW: &str = "\
koivrast makes Raccoon keys, signs orders and files with them and verifies both.
It keeps a signing key in random shares; the unit behind it is proved to sign
alike whatever the shares are.

Five minutes:
  koivrast keygen --set 128 --shares 4 --key gate.key --public gate.pub
  echo 'release tram 17' > order.txt
  koivrast sign --key gate.key --message order.txt --out order.sig
  koivrast verify --public gate.pub --message order.txt --signature order.sig

Commands:
  keygen      make a signing key and its public key
  open        expand a signing key: all its shares in full, for signing often
  refresh     share the secret of an expanded key anew
  slip sign   sign an order: movement, track, text and signature in one file
  slip read   ask whether a slip is good, and what it says
  sign        sign a message of any kind, the signature in a file of its own
  verify      ask whether such a signature is good
  inspect     tell what is in a key, a signature or a slip
  lengths     tell what a program that signs has to lend to the unit
  bench-demo  show that six share counts give one signature
  help        this text, or that of a command: koivrast help sign

Exit status:
  0  done; from slip read and verify: it is good
  1  no: a check of the unit was answered with no, and the message names it
  2  wrong use, or trouble with a file or the system

Files hold the plain bytes of keys, signatures and slips. A slip begins with TMR;
what another file is follows from its length.
";

pub const KEYGEN: &str = "\
koivrast keygen --set SET --shares COUNT --key FILE --public FILE [--force]

Makes a signing key and its public key, from random bytes of the operating
system.

  --set SET       128, 192 or 256: the strength aimed at, in bits
  --shares COUNT  1, 2, 4, 8, 16 or 32: how many random shares hold the secret;
                  with more, signing takes longer
  --key FILE      where the signing key goes; a secret, readable by its owner only
  --public FILE   where the public key goes; '-' is standard output
  --force         replace files that are there

Example:
  koivrast keygen --set 128 --shares 4 --key gate.key --public gate.pub
";

pub const OPEN: &str = "\
koivrast open KEY --out FILE [--force]

Expands a signing key: all shares in full, and the digest of its public key, as
signing needs them. Who signs often opens the key once. An expanded key written
before the digest was kept in it has another length: open the signing key again.

  KEY         a signing key
  --out FILE  where the expanded key goes; a secret, readable by its owner only
  --force     replace a file that is there

Example:
  koivrast open gate.key --out gate.open
";

pub const REFRESH: &str = "\
koivrast refresh KEY --out FILE [--force]

Shares the secret of an expanded key anew: other random shares, the same secret.
Public key and digest stay, and signatures stay good. A digest that is false stays
so, with a warning.

  KEY         an expanded key
  --out FILE  where the new sharing goes; a secret, readable by its owner only.
              It may be KEY itself, then the new file takes its place; the disk
              may still hold the blocks of the old one.
  --force     replace another file that is there

Example:
  koivrast refresh gate.open --out gate.open
";

pub const SIGN: &str = "\
koivrast sign --key FILE --message FILE --out FILE [--attempts COUNT] [--force]

Signs a message of at most 4096 bytes. Of a longer one, sign the hash.

  --key FILE        a signing key, or an expanded key; one whose digest is false
                    signs with a warning, and verify refuses the signature with 16
  --message FILE    what is signed, byte for byte; '-' is standard input
  --out FILE        where the signature goes; '-' is standard output
  --attempts COUNT  how many attempts are allowed, 1 to 16; 16 if not given
  --force           replace a file that is there

Examples:
  koivrast sign --key gate.key --message order.txt --out order.sig
  sha256sum film.mp4 | koivrast sign --key gate.key --message - --out film.sig
";

pub const VERIFY: &str = "\
koivrast verify --public FILE --message FILE --signature FILE

Asks whether a signature is good for a message and a public key. Exit status 0:
it is. Anything else: do not accept it.

  --public FILE     the public key of the signer
  --message FILE    the message, byte for byte as it was signed
  --signature FILE  the signature

One of the three files may be '-', standard input.

Examples:
  koivrast verify --public gate.pub --message order.txt --signature order.sig
  sha256sum film.mp4 | koivrast verify --public gate.pub --message - --signature film.sig
";

/// Both commands of slips.
pub const SLIP: &str = "\
koivrast slip sign --key FILE --movement NUMBER --track NUMBER --text FILE --out FILE
koivrast slip read --public FILE SLIP

A slip is an order and its signature in one file: the mark TMR, the version 1, a
movement number, a track, a text of at most 512 bytes, and the signature of all
that stands before it. `koivrast help slip sign` and `koivrast help slip read` tell
more. Without a key, inspect tells what a slip says, not verified.
";

pub const SLIP_SIGN: &str = "\
koivrast slip sign --key FILE --movement NUMBER --track NUMBER --text FILE --out FILE
                   [--attempts COUNT] [--force]

Signs an order and writes it, with its signature, as a slip.

  --key FILE         a signing key, or an expanded key; one whose digest is false
                     signs with a warning, and slip read refuses the slip with 16
  --movement NUMBER  the movement, 0 to 65535
  --track NUMBER     the track, 0 to 255
  --text FILE        the text, at most 512 bytes, which may be of any kind; '-' is
                     standard input
  --out FILE         where the slip goes; '-' is standard output
  --attempts COUNT   how many attempts are allowed, 1 to 16; 16 if not given
  --force            replace a file that is there

Examples:
  koivrast slip sign --key gate.key --movement 17 --track 4 --text order.txt --out order.slip
  printf Stop. | koivrast slip sign --key gate.key --movement 18 --track 4 --text - --out stop.slip
";

pub const SLIP_READ: &str = "\
koivrast slip read --public FILE SLIP

Asks whether a slip is good for a public key, and if it is, tells what it says:
movement, track and text. Of the text only what can be printed is shown as it is;
the rest is escaped, as \\n for the end of a line. Exit status 0: it is good.
Anything else: do not accept it.

  --public FILE  the public key of the signer
  SLIP           a slip, as slip sign writes it

One of the two files may be '-', standard input.

Example:
  koivrast slip read --public gate.pub order.slip
";

pub const INSPECT: &str = "\
koivrast inspect FILE...

Tells what is in keys, signatures and slips: set, share count, sizes; of an expanded
key also the digest and whether it is that of the public key; of a signature the
bits used of its field, its norms beside their bounds, and its hint as a chart; of
one over the bounds the coefficient that decided, its polynomial and its place
counted from 0, and why; of a slip movement, track, text and what is told of its
signature; of several keys whether their public key is the same. Nothing secret is
printed. Exit status 1: a file is no key, no signature and no slip, or not in order.
Whether a signature or a slip is good, only verify and slip read say.

  FILE  a signing key, expanded key, public key, signature or slip; one may be '-',
        standard input

Example:
  koivrast inspect gate.key gate.pub order.slip
";

pub const LENGTHS: &str = "\
koivrast lengths --set SET --shares COUNT [--attempts COUNT]

Tells what a signing call is lent, as the unit counts it: the bytes of the noise
seeds and of the mask seeds, of all attempts together, and the work buffer, in words
of 8 bytes and in bytes. That is for programs which call the unit themselves; the
command sign brings all of it.

  --set SET         128, 192 or 256
  --shares COUNT    1, 2, 4, 8, 16 or 32
  --attempts COUNT  how many attempts are allowed, 1 to 16; 16 if not given

Example:
  koivrast lengths --set 128 --shares 4 --attempts 8
";

pub const BENCH_DEMO: &str = "\
koivrast bench-demo [--set SET] [--progress]

The course's demonstration. One secret is cut at random into 1, 2, 4, 8, 16 and
32 shares, and each cut signs the same message with noise of equal totals. The
shares differ, the six signatures are equal. The key is made for this and dropped.

  --set SET   128, 192 or 256; 128 if not given
  --progress  tell how far it is, on standard error, also if that is no terminal

Example:
  koivrast bench-demo --set 256
";
