procedure Main is N : Integer := 0; M : Integer := 1; begin null; end Main;
