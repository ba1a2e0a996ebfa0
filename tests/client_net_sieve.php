#!/usr/bin/php
<?php
// The steps of tests/clients by PEAR's Net_Sieve, which Roundcube uses: client_net_sieve.php PORT. It has no call to check or rename a script.
error_reporting(E_ERROR);
require 'Net/Sieve.php';

$failed = 0;
$pear = new PEAR();

function step($name, $held, $said = null)
{
    global $failed, $pear;
    if ($held) {
        echo "Net_Sieve: $name: ok\n";
    } else {
        echo "Net_Sieve: $name: ", $pear->isError($said) ? $said->getMessage() : var_export($said, true), "\n";
        $failed = 1;
    }
}

function does($name, $said)
{
    step($name, $said === true, $said);
}

function refuses($name, $said, $text)
{
    global $pear;
    step($name, $pear->isError($said) && strpos($said->getMessage(), $text) !== false, $said);
}

$rules = "require \"fileinto\";\r\nif header :contains \"subject\" \"[list]\" { fileinto \"lists\"; }\r\n";
$wrong = new Net_Sieve('php', 'wrong', '127.0.0.1', $argv[1]);
refuses('log in with a wrong password', $wrong->getError(), 'Authentication failed.');
$wrong->disconnect();
$login = new Net_Sieve('php', 'secret', '127.0.0.1', $argv[1], 'LOGIN');
refuses('mechanism LOGIN', $login->getError(), 'we want to use: LOGIN');
$login->disconnect();

$client = new Net_Sieve('php', 'secret', '127.0.0.1', $argv[1]);
step('log in', !$client->getError(), $client->getError());
step('capabilities', $client->hasExtension('vacation') && $client->getAuthMechs() == ['PLAIN']);
step('list nothing', $client->listScripts() == []);
step('space', $client->haveSpace('rules', 400) === true);
step('space for too much', $client->haveSpace('rules', 4000000) !== true);
does('put', $client->installScript('rules', $rules));
does('put another and activate it', $client->installScript('täglich "b"', "keep;\r\n", true));
refuses('put what is wrong', $client->installScript('wrong', "keep;\r\nfileinto \"lists\";\r\n"), 'line 2: extension not required');
step('list the active one', $client->listScripts($active) == ['rules', 'täglich "b"'] && $active == 'täglich "b"', $active);
step('get (it adds the line end after the literal)', $client->getScript('rules') === "$rules\r\n", $client->getScript('rules'));
refuses('delete the active one', $client->removeScript('täglich "b"'), 'Script is active.');
does('activate', $client->setActive('rules'));
does('delete', $client->removeScript('täglich "b"'));
does('deactivate', $client->setActive(''));
does('delete the last one', $client->removeScript('rules'));
does('log out', $client->disconnect());
exit($failed);
