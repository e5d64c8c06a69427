with Ada.Finalization;
procedure Main is
   type Box;
   type Link is access Box;
   type Box is new Ada.Finalization.Limited_Controlled with record Value : Integer := 0; end record;
   overriding procedure Initialize (Object : in out Box);
   overriding procedure Initialize (Object : in out Box) is
      L : Link;
   begin
      Object.Value := 1;
      return;
      L := new Box;
   exception
      when others => null;
   end Initialize;
   B : Box;
begin
   null;
end Main;
