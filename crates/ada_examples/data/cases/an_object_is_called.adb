procedure Main is N : Integer := 0; begin N; end Main;
