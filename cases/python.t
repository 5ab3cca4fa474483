# contrib/python/depot.py, the module for Python

## its examples
    $ python3 -B -m doctest "$TOP/contrib/python/depot.py"

## its calls, and how it ends
    $ "$TOP/cases/python_module"
    ok commands
    ok names
    ok size
    ok refusals
    ok opening
    ok ends
    ok interruption
    ok strange

## without the program
    $ mkdir bin && ln -s "$(command -v python3)" bin/python3 && PYTHONPATH="$TOP/contrib/python" PATH=$PWD/bin python3 -B -c 'import depot; depot.Depot("mail.depot", make=True)' 2>&1 | tail -n 1; ls
    depot.NoProgram: there is no program depot: put depot on the PATH, or name it by the variable DEPOT
    bin
    depot
    examples
    $ rm -r bin
