<?php
/* Predis 1.1 (php-predis): StreamConnection.
 * needs: php /usr/share/php/Predis/Autoloader.php
 * run: php {FILE} */
require '/usr/share/php/Predis/Autoloader.php';
Predis\Autoloader::register();

if (($argv[1] ?? '') === '--about') {
    echo '{"parser": "Predis 1.1.10", "profiles": ["resp2"], "same": [["null", "nullbulk", "nullarray"], ["bulk", "simple"]]}', "\n";
    exit;
}

/* A stream of pieces, of which one call reads one. After the last it is at its end. */
class Pieces
{
    public static $left = [];
    public $context;
    public function stream_open($path, $mode, $options, &$opened) { return true; }
    public function stream_eof() { return !self::$left; }
    public function stream_read($size)
    {
        if (!self::$left) return '';
        $piece = array_shift(self::$left);
        if (strlen($piece) > $size) array_unshift(self::$left, substr($piece, $size));
        return substr($piece, 0, $size);
    }
}
stream_wrapper_register('pieces', 'Pieces');

class Over extends Predis\Connection\StreamConnection
{
    public $stream;
    public function getResource() { return $this->stream; }
}

function latin1($text)
{
    return preg_replace_callback('/[\x80-\xff]/', fn($it) => chr(192 | ord($it[0]) >> 6) . chr(128 | ord($it[0]) & 63), (string) $text);
}

function told($value)
{
    if ($value === null) return ['null'];
    if (is_int($value)) return ['integer', (string) $value];
    if (is_array($value)) return ['array', array_map('told', $value)];
    if ($value instanceof Predis\Response\ErrorInterface) return ['error', latin1($value->getMessage())];
    return ['bulk', latin1($value)];
}

while (($line = fgets(STDIN)) !== false) {
    [$id, , $pieces] = explode(' ', rtrim($line, "\n"), 3);
    Pieces::$left = array_values(array_filter(array_map(fn($it) => $it === 'end' ? '' : hex2bin($it), explode(',', $pieces)), 'strlen'));
    $connection = new Over(new Predis\Connection\Parameters(['host' => 'none']));
    $connection->stream = fopen('pieces://', 'r');
    $values = [];
    try {
        while (!feof($connection->stream)) $values[] = told(@$connection->read());
        $end = 'more';
    } catch (Predis\Protocol\ProtocolException $error) {
        $end = 'error';
    } catch (Throwable $error) {
        $end = str_contains($error->getMessage(), 'Error while reading') ? 'more' : 'error';
    }
    echo json_encode(['id' => $id, 'values' => $values, 'end' => $end]), "\n";
}
