procedure Main is N : Integer := 0; begin null; end Main;
