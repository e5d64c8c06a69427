with Ada.Finalization;
procedure Main is
   type Brick is record Height : Integer := 0; end record;
   type Crane is access Brick;
   type Wall is new Ada.Finalization.Controlled with record Top : Crane; end record;
   overriding procedure Adjust (Object : in out Wall);
   overriding procedure Adjust (Object : in out Wall) is
   begin
      for Row in 1 .. 2 loop
         Object.Top := new Brick'(Height => Row);
      end loop;
      Object.Top := null;
   exception
      when others => Object.Top := null;
   end Adjust;
begin
   null;
end Main;
