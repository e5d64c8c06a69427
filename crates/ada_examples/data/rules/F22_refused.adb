procedure Main is N : Integer := True; begin null; end Main;
