#!/usr/bin/env perl
# Reads a document by the JSON grammar with Marpa::R2, without a value. Arguments: the grammar and the document.
use strict;
use warnings;
use Marpa::R2;

sub text_of {
    my ($name) = @_;
    open my $file, '<:encoding(UTF-8)', $name or die "$name: $!";
    local $/;
    my $text = <$file>;
    return $text;
}

my ( $grammar_name, $input_name ) = @ARGV;
my $source = text_of($grammar_name);
my $grammar = Marpa::R2::Scanless::G->new( { source => \$source } );
my $recce = Marpa::R2::Scanless::R->new( { grammar => $grammar } );
my $input = text_of($input_name);
$recce->read( \$input );
print join( "\n", sort @{ $recce->terminals_expected() } ), "\n";
