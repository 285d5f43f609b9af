<?php
echo 'Hello, ', 'world!', '
';
echo 6, ' times ', 7, ' is ', 42, '
';
