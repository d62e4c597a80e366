# Whether preflights step through places. Reads a program as an LLVM module, in text; says 'passed' and ends with 0, or says what is
# refused and ends with 1.
#
#   perl .ci/straight.pl CRATES PREFLIGHT.. <MODULE
#
# CRATES is the folder of the crates that the program is of. A PREFLIGHT is the name of a function that has to read operations. Three
# rules hold for it and for all that it calls, in any crate.
# The parsers of operations are the reading itself: they are not looked into.
#
#   1. No function leads back to itself.
#   2. There is no loop but that over the operations. (Before it, a function may loop that is given the sizes and nothing else.)
#   3. Each turn of that loop reads, and with each turn there are fewer bytes behind the place of the next operation: by that measure the
#      loop is proved to end.
#
# So there are no more turns than readings, and none of them goes back; a turn has a bounded number of steps beside the reading. A form
# of the module that is not known here is refused.
use strict;
use warnings;
no warnings 'recursion';

my %parser = map { $_ => 1 } qw(
    operations::rebase_operation::RebaseOperation::parse
    operations::bind_operation::BindOperation::parse
);
my (%blocks, %labels);    # by a function's name: its blocks, by their labels, and the labels in the order of the text
my $crates;

# An instance of a generic function is named after it, with `::<..>` behind. What is refused is said of the function.
sub plain { return $_[0] =~ s/::<[^\s,]*//gr }

sub refuse { print plain("refused: @_"), "\n"; exit 1 }

# ---- the program

# The instructions that only compute, and those that end a block.
my %computes = map { $_ => 1 } qw(
    alloca store load getelementptr ptrtoaddr ptrtoint inttoptr bitcast trunc zext sext freeze select phi extractvalue insertvalue
    add sub mul udiv sdiv urem srem shl lshr ashr and or xor icmp
);
my %ends = map { $_ => 1 } qw(br switch ret unreachable);

# A block has the functions that it calls, in their order; the blocks behind it; and whether it returns.
sub read_program {
    my ($name, $block, $switch);
    while (<STDIN>) {
        if (/^define .*? @("[^"]+"|[\w.\$]+)\(/) {
            $name = $1 =~ tr/"//dr;
            !exists $blocks{$name} or refuse("two functions of one name: $name");
            $labels{$name} = [];
            undef $block;
        } elsif (/^\}/) {
            undef $name;
        } elsif (defined $name && /^("[^"]+"|[\w.\$-]+):/) {
            my $label = $1 =~ tr/"//dr;
            push @{ $labels{$name} }, $label;
            $block = $blocks{$name}{$label} = { calls => [], to => [], returns => 0 };
        } elsif (defined $name && $switch) {
            push @{ $block->{to} }, targets($_);
            $switch = !/^  \]/;
        } elsif (defined $name && /^  (?:%[\w.]+ = )?(?:(?:tail|musttail|notail) )?(\w+)/) {
            defined $block or refuse("an instruction in no block: $name");
            instruction($block, $1, $_);
            $switch = $1 eq 'switch' && !/\]\s*$/;
        } elsif (defined $name && /\S/) {
            refuse("a line of an unknown form: $_");
        }
    }
    %blocks or refuse('no program');
}

sub targets { return map { tr/"//dr } $_[0] =~ /label %("[^"]+"|[\w.\$-]+)/g }

sub instruction {
    my ($block, $form, $text) = @_;
    if ($form eq 'call') {
        $text =~ /^  [^@(]*?call [^@(]*@("[^"]+"|[\w.\$]+)\((.*)\)/ or refuse("a call of an unknown form: $text");
        my ($name, $given) = ($1 =~ tr/"//dr, $2);
        # Only as many bytes are set or copied as a value has.
        $name !~ /^llvm\.mem/ || $given =~ /, i64 \d+, i1 false$/ or refuse("bytes without a number: $text");
        push @{ $block->{calls} }, $name if $name !~ /^llvm\./;
    } elsif ($ends{$form}) {
        push @{ $block->{to} }, targets($text);
        $block->{returns} = $form eq 'ret';
    } else {
        $computes{$form} or refuse("a statement of an unknown form: $form");
    }
}

# ---- what a function does

# Its loops, and the calls that stand in none, in the order of the text: [call => NAME], [loop => LABELS]. A loop is a set of blocks that
# all lead to one another; the first label is that of the only block where it is entered.
sub acts {
    my ($name) = @_;
    exists $blocks{$name} or refuse("a call of $name, which is not in the program");
    my $of = $blocks{$name};
    my $start = $labels{$name}[0];
    my %leads = map { $_ => { map { $_ => 1 } behind($of, $_) } } @{ $labels{$name} };
    my (@acts, %in_loop);
    for my $label (@{ $labels{$name} }) {
        next if $in_loop{$label} || !($label eq $start || $leads{$start}{$label});
        if (!$leads{$label}{$label}) {
            push @acts, map { [call => $_] } @{ $of->{$label}{calls} };
            next;
        }
        my %loop = map { $_ => 1 } grep { $leads{$label}{$_} && $leads{$_}{$label} } @{ $labels{$name} };
        my %entered;
        for my $from ($start, grep { !$loop{$_} && $leads{$start}{$_} } @{ $labels{$name} }) {
            $entered{$_} = 1 for grep { $loop{$_} } @{ $of->{$from}{to} };
        }
        keys %entered == 1 && !$loop{$start} or refuse("a loop of an unknown form in $name");
        my ($head) = keys %entered;
        push @acts, [loop => [$head, grep { $loop{$_} && $_ ne $head } @{ $labels{$name} }]];
        %in_loop = (%in_loop, %loop);
    }
    return @acts;
}

# The blocks that one leads to, but for those that are named; itself only where it leads back.
sub behind {
    my ($of, $label, %but) = @_;
    my (@to, %seen) = @{ $of->{$label}{to} };
    while (@to) {
        my $next = shift @to;
        next if $seen{$next}++ || $but{$next};
        exists $of->{$next} or refuse("no block $next");
        push @to, @{ $of->{$next}{to} };
    }
    return grep { !$but{$_} } keys %seen;
}

# The functions that some blocks call, and those that a function calls.
sub calls_in {
    my ($name, @labels) = @_;
    return map { @{ $blocks{$name}{$_}{calls} } } @labels;
}

sub calls {
    my ($name) = @_;
    return map { $_->[0] eq 'call' ? $_->[1] : calls_in($name, @{ $_->[1] }) } acts($name);
}

# Whether a function is a parser, or leads to one.
my %reads;

sub reads {
    my ($name) = @_;
    return $reads{$name} //= $parser{$name} || (grep { reads($_) } calls($name)) ? 1 : 0;
}

# Whether a function is given slices of u64 and nothing else, as the sizes are: so it is written in its file.
sub given_sizes {
    my ($name) = @_;
    my ($crate, @path) = split /::/, plain($name);
    my $function = pop @path;
    my $file = join '/', $crate, 'src', @path ? @path : 'lib';
    open my $code, '<', "$crates/$file.rt" or return 0;
    my @given = do { local $/; <$code> } =~ /^ *(?:pub(?:\(crate\))? )?fn $function\(([^)]*)\)/mg;
    return @given == 1 && $given[0] =~ /^\w+: &\[u64\](, \w+: &\[u64\])*$/;
}

# ---- rule 1: no recursion

my %looked_at;

sub no_recursion {
    my ($name, @above) = @_;
    refuse("recursion in $name") if grep { $_ eq $name } @above;
    return if $parser{$name} || $looked_at{$name};
    no_recursion($_, @above, $name) for calls($name);
    $looked_at{$name} = 1;
}

# ---- rule 2: no loop but one

# In a function that reads, and in what it calls. What stands behind a reading in the text is taken to run behind it.
sub one_loop {
    my ($name) = @_;
    my $read = 0;
    for (acts($name)) {
        my ($act, $of) = @$_;
        if ($act eq 'loop') {
            refuse("loop in $name") if $read || !grep { reads($_) } calls_in($name, @$of);
            no_loop_within($name, @$of);
            turns_read($name, @$of);
            measured($name);
            $read = 1;
        } elsif ($parser{$of} || $read && reads($of)) {
            refuse("a reading outside of a loop in $name");
        } elsif (reads($of) && !$read) {
            one_loop($of);
            $read = 1;
        } elsif ($read || !given_sizes($of)) {
            no_loop($of);
        }
    }
}

# In a function, and in what it calls.
my %no_loop;

sub no_loop {
    my ($name) = @_;
    return if $parser{$name} || $no_loop{$name}++;
    my @acts = acts($name);
    refuse("loop in $name") if grep { $_->[0] eq 'loop' } @acts;
    no_loop($_->[1]) for @acts;
}

# In a loop of a function: without the block where it is entered, no block leads back to itself.
sub no_loop_within {
    my ($name, $head, @body) = @_;
    for my $label (@body) {
        refuse("loop in $name") if grep { $_ eq $label } behind($blocks{$name}, $label, $head => 1);
    }
    no_loop($_) for calls_in($name, $head, @body);
}

# ---- rule 3: the turns of the loop over the operations

# Whether a function is a parser, or has called one whenever it returns.
sub always_reads {
    my ($name) = @_;
    return 1 if $parser{$name};
    return 0 if !reads($name) || grep { $_->[0] eq 'loop' } acts($name);
    my %reading = map { $_ => 1 } reading($name, @{ $labels{$name} });
    my $start = $labels{$name}[0];
    return $reading{$start} || !grep { $blocks{$name}{$_}{returns} } $start, behind($blocks{$name}, $start, %reading);
}

# The blocks that read, whatever they do.
sub reading {
    my ($name, @labels) = @_;
    return grep { grep { always_reads($_) } @{ $blocks{$name}{$_}{calls} } } @labels;
}

# A loop comes round where its first block is entered again.
sub turns_read {
    my ($name, $head, @body) = @_;
    my %reading = map { $_ => 1 } reading($name, $head, @body);
    return if $reading{$head};
    refuse("a turn without a reading in $name") if grep { $_ eq $head } behind($blocks{$name}, $head, %reading);
}

# In what the author chose for the proof of a function that has the loop. The kit takes it by its name, where there is no proof by hand, and
# proves that it falls with each turn.
sub measured {
    my ($name) = @_;
    my $folder = "$crates/preflight/proofs/" . (plain($name) =~ s{^preflight::}{}r =~ s{::}{/}gr);
    open my $chosen, '<', "$folder/Invariants.antt" or refuse("no measure of $name");
    my $text = do { local $/; <$chosen> };
    my $is = "abbrev pub decreases-loop-next : goal.decreases-loop-next\ndecreases-loop-next g l = length l.s - l.flight.at";
    index($text, "\n$is\n") >= 0 && !-e "$folder/Proof.antt" or refuse("turns that the bytes left do not count in $name");
}

# ---- all of it

$crates = shift @ARGV;
read_program();
@ARGV or refuse('no preflight is named');
for my $name (@ARGV) {
    exists $blocks{$name} or refuse("$name is not in the program");
    no_recursion($name);
    reads($name) or refuse("no reading in $name");
    one_loop($name);
}
print "passed\n";
