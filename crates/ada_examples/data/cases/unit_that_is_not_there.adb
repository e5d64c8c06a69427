with Ada.Text_IO, Ada.Real_Time; procedure Main is begin null; end Main;
