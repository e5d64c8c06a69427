procedure Main is N : Boolean := True; begin null; end Main;
