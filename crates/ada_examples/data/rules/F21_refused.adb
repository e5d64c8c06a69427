procedure Main is N : Integer := 0; N : Integer := 1; begin null; end Main;
