with Ada.Finalization;
procedure Main is
   type Brick is record Height : Integer := 0; end record;
   type Crane is access Brick;
   type Wall is new Ada.Finalization.Controlled with record Top : Crane; end record;
   overriding procedure Adjust (Object : in out Wall);
   overriding procedure Adjust (Object : in out Wall) is
   begin
      Object.Top := null;
      for Row in 1 .. 2 loop
         Object.Top := new Brick'(Height => Row);
      end loop;
   exception
      when others => Object.Top := null;
   end Adjust;
   One : Wall;
   Two : Wall;
begin
   Two := One;
end Main;
