#!/usr/bin/perl
# Makes the calls of scripts/interop to Crypt::JWT. Each line of standard input is a JSON request, and each line of
# standard output is a JSON answer.
use strict;
use warnings;
use Crypt::JWT qw(decode_jwt encode_jwt);
use Crypt::Misc qw(decode_b64u encode_b64u);
use JSON;

$| = 1;

sub written {
    my ($ask, %more) = @_;
    my $form = $ask->{form};
    return encode_jwt(
        alg => $ask->{algs}[0],
        key => decode_b64u($ask->{keys}[0]),
        serialization => $form =~ /^compact/ ? 'compact' : 'flattened',
        ($form eq 'compact, zip' ? (zip => 'deflate') : ()),
        %more
    );
}

sub read_by {
    my ($ask) = @_;
    return encode_b64u(decode_jwt(token => $ask->{text}, key => decode_b64u($ask->{key}), decode_payload => 0));
}

my %calls = (
    sign => sub { written($_[0], payload => decode_b64u($_[0]{payload})) },
    encrypt => sub {
        my ($ask) = @_;
        my @aad = $ask->{aad} ne '' ? (aad => decode_b64u($ask->{aad})) : ();
        my @count = $ask->{algs}[0] =~ /^PBES2/ ? (extra_headers => {p2c => 1000, p2s => 16}) : ();
        written($ask, payload => decode_b64u($ask->{plaintext}), enc => $ask->{enc}, @aad, @count);
    },
    verify => \&read_by,
    decrypt => \&read_by,
);

while (my $line = <STDIN>) {
    my $ask = decode_json($line);
    my $ok = eval { $calls{$ask->{do}}->($ask) };
    print encode_json(defined $ok ? {ok => $ok} : {refused => $@ =~ s/\s+$//r || 'no answer'}), "\n";
}
