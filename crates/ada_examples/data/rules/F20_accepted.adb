procedure Main is N : Integer := 0; begin N := 1; end Main;
