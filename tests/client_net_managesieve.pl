#!/usr/bin/perl
# The steps of tests/clients by Net::ManageSieve: client_net_managesieve.pl PORT. It has no call to check or rename a script.
use strict;
use warnings;
use Net::ManageSieve;

my $failed = 0;

sub step {
    my ($name, $held, $client) = @_;
    if ($held) {
        print "Net::ManageSieve: $name: ok\n";
    } else {
        print "Net::ManageSieve: $name: ", $client ? $client->error : $@, "\n";
        $failed = 1;
    }
}

my @where = ('127.0.0.1', Port => $ARGV[0], Timeout => 10);
my $rules = "require \"fileinto\";\nif header :contains \"subject\" \"[list]\" { fileinto \"lists\"; }\n";

my $required = Net::ManageSieve->new(@where, tls => 'require');
step('STARTTLS is refused where it is required', !$required);
my $wanted = Net::ManageSieve->new(@where, tls => 'auto');
step('STARTTLS is refused where it is wanted, and the session goes on', $wanted && $wanted->login('perl', 'secret'), $wanted);
$wanted->logout if $wanted;

my $client = Net::ManageSieve->new(@where) or die $@;
step('greeting', $client->capabilities->{sasl} eq 'PLAIN', $client);
step('log in with a wrong password', !$client->login('perl', 'wrong'), $client);
step('log in', $client->login('perl', 'secret'), $client);
step('capabilities', $client->capabilities(1)->{owner} eq 'perl', $client);
step('list nothing', "@{$client->listscripts}" eq '', $client);
step('space', $client->havespace('rules', length $rules), $client);
step('space for too much', !$client->havespace('rules', 4_000_000), $client);
step('put', $client->putscript('rules', $rules), $client);
step('put one whose name has quotation marks', $client->putscript('"b"', "keep;\n"), $client);
step('put what is wrong', !$client->putscript('wrong', "fileinto \"lists\";\n"), $client);
step('activate', $client->setactive('rules'), $client);
step('list the active one', "@{$client->listscripts}" eq '"b" rules rules', $client);
step('get', $client->getscript('rules') eq $rules, $client);
step('delete the active one', !$client->deletescript('rules'), $client);
step('deactivate', $client->setactive(''), $client);
step('delete', $client->deletescript('rules') && $client->deletescript('"b"'), $client);
step('list nothing', "@{$client->listscripts}" eq '', $client);
step('log out', $client->logout, $client);
exit $failed;
