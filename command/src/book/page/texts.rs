//! The words of the page that are the same for every book.

pub const RIGHT: &str = "Its numbers have no gap, every entry names the digest of the one before, and every answer was judged anew: each plan is the plan of its run sheet, \
to the last number, and each refusal is the one that its run sheet gets.";

pub const PICTURE: &str = "Place on the tape from left to right, the clock from top to bottom. Bands are files; those that are wanted stand out, with their numbers above. The line is the head; \
it is thick where it reads, and has a dot where a file has been read.";

pub const PLAN_CHECKED: &str = "Checked anew: the entry has its number and the digest of the one before. By the proved program <code>check</code> the detours are well formed, every time \
and sum is that of the head's walk, and the sum is the least.";

pub const REFUSAL_CHECKED: &str =
    "Checked anew: the entry has its number and the digest of the one before, and the proved program gives this refusal for this run sheet.";

pub const WHAT: &str = "<section>
<h2>What this page is</h2>
<p>Files lie on a tape, one behind the other, and people wait for some of them. A head moves along the tape and reads a file while it passes over it from left to right. In which order it \
goes decides who waits how long. A <em>run sheet</em> says where the files lie, where the head stands, what a turn of the head costs and how many wait for which file. The program answers with a \
<em>plan sheet</em>: how the head is to move, and when each file is read. This book keeps, for every run, both sheets, who asked and when.</p>
<ul>
<li><em>Place, length and time</em> are counted in one unit, which whoever wrote the run sheet has chosen: the head takes one unit of time for one unit of tape. Where the sheet was made from an \
LTFS index, the unit is the byte. Every run begins at time 0.</li>
<li>A <em>read</em> is one request for one file. All requests for a file are served when it is read.</li>
<li>A <em>leg</em> is one way of the head: left to a place, a turn, right to another place. A leg made on the way left, for files that many wait for, is a <em>detour</em>; the last leg, over \
all that is still unread, is the <em>last sweep</em>.</li>
<li>An <em>aggregate</em> is several files one behind the other that are read together, as one.</li>
<li>A <em>refused</em> run sheet is one that cannot be planned. The answer then is a number from a fixed table and a place on the sheet, and the book keeps that too.</li>
</ul>
</section>
<section>
<h2>What was checked</h2>
<p>One entry after the other, anew for this page, up to the first that cannot be right where there is one: that no number is missing; that every entry has the form of an entry, and names the SHA-256 of the one before it; and of every answer that it is the \
answer to the run sheet beside it. Whoever has the book and the program can do the same: <code>violstream audit BOOK</code>. For one entry alone <code>violstream check RUN PLAN</code> does, on \
the two sheets that the entry holds. Both need no trust in whoever kept the book.</p>
</section>
<section>
<h2>What is proved, and what is assumed</h2>
<p>Proved, by a machine that checks proofs, for every run sheet there can be: the times and sums of a plan sheet are those of the head's walk, step for step; no movement of the head that serves \
all these reads has a smaller sum; a run sheet is refused only for a reason of the table, and the first that applies is given; and <code>check</code> says yes to a plan sheet only where it is \
all this.</p>
<p>Assumed: that the tape is one straight track, passed at one speed in either direction, with one price for every turn; that the drive did move by the plan, from where the run sheet says; \
that the clock and the user of the machine on which an entry was made were right, and that the name behind <em>by</em> is who asked; that nobody finds two texts with the same SHA-256. \
The program around the proved parts, which keeps this book and has made this page, is tested and not proved.</p>
</section>
<section>
<h2>What no book can show by itself</h2>
<p>Three things leave a book in order: the last entry changed in its time or name; the last entries removed; an entry changed and everything after it written anew. Then only the digest of the \
last entry differs. So keep that digest, which stands at the top of this page, in another place, and compare it the next time.</p>
</section>
";
